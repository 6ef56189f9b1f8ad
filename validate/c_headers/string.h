#ifndef VALIDATE_STRING
#define VALIDATE_STRING
#include <stddef.h>
void *memcpy(void *to, const void *from, size_t size);
void *memset(void *to, int byte, size_t size);
#endif
