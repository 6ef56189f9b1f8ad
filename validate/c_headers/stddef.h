/* The reader takes size_t by its name; what it is here does not count. */
#ifndef VALIDATE_STDDEF
#define VALIDATE_STDDEF
typedef unsigned long size_t;
#define NULL ((void *)0)
#endif
