#ifndef PAGE_UNISTD_H
#define PAGE_UNISTD_H

#include <sys/stat.h>

typedef long ssize_t;
typedef unsigned long long off_t;

ssize_t pread(int file, void *bytes, size_t size, off_t from);
int close(int file);

#endif
