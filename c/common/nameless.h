/* Files that have no name until they are whole, so that a killed program leaves none behind. */
#ifndef COMMON_NAMELESS_H
#define COMMON_NAMELESS_H

/* One to be written, in the folder of a path, with the mode that new files have; -1 if the system or the file system has no such. */
int nameless_open(const char *path);

/* Gives it a name that is free; 0, or the error. */
int nameless_link(int file, const char *path);

#endif
