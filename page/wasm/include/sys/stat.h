#ifndef PAGE_SYS_STAT_H
#define PAGE_SYS_STAT_H

#include <stddef.h>

struct stat {
    unsigned st_mode;
    unsigned long long st_size;
};

#define S_ISREG(mode) ((mode) == 1u)

int fstat(int file, struct stat *status);

#endif
