#ifndef PAGE_SYS_FILE_H
#define PAGE_SYS_FILE_H

#define LOCK_SH 1
#define LOCK_NB 4

/* Nobody else has the page's file open. */
int flock(int file, int operation);

#endif
