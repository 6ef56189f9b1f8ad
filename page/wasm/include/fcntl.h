#ifndef PAGE_FCNTL_H
#define PAGE_FCNTL_H

#define O_RDONLY 0
#define O_NONBLOCK 2048
#define O_CLOEXEC 524288

/* The one file that the page holds, whatever its name. */
int open(const char *path, int flags, ...);

#endif
