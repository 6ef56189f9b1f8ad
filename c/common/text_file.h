/* Text files that people write. */
#ifndef COMMON_TEXT_FILE_H
#define COMMON_TEXT_FILE_H

#include <stdbool.h>
#include <stddef.h>
#include <stdio.h>

/* A regular file, opened to be read: FIFOs and folders are refused at once, a byte order mark is passed over. Null leaves why. */
FILE *text_file_open(const char *path, char *why, size_t size);

/* All of a file of up to 32 MiB, ended by a zero; one with a zero byte inside is no text. Free it. False leaves why. */
bool text_file_read(const char *path, char **text, char *why, size_t size);

#endif
