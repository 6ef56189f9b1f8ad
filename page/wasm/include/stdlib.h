/* What the page's C needs of stdlib.h; see memory.c and host.c. */
#ifndef PAGE_STDLIB_H
#define PAGE_STDLIB_H

#include <stddef.h>

void *calloc(size_t count, size_t size);
void free(void *memory);

/* What has been taken so far stays. */
void memory_keep(void);

__attribute__((noreturn)) void exit(int status);
unsigned long long strtoull(const char *text, char **end, int base);

#endif
