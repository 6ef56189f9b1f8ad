#ifndef PAGE_ERRNO_H
#define PAGE_ERRNO_H

extern int errno;

#define EINTR 4
#define EWOULDBLOCK 11
#define ERANGE 34

#endif
