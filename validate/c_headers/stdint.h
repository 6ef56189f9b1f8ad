/* The reader takes these types by their names; what they are here does not count. */
#ifndef VALIDATE_STDINT
#define VALIDATE_STDINT
typedef unsigned char uint8_t;
typedef unsigned short uint16_t;
typedef unsigned int uint32_t;
typedef unsigned long long uint64_t;
typedef signed char int8_t;
typedef short int16_t;
typedef int int32_t;
typedef long long int64_t;
#define UINT64_C(x) x##ULL
#define UINT64_MAX 0xffffffffffffffffULL
#if VALIDATE_SIZE == 64
#define SIZE_MAX 0xffffffffffffffffULL
#else
#define SIZE_MAX 0xffffffffUL
#endif
#endif
