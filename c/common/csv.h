/* Rows of CSV files that people or these programs have written. */
#ifndef COMMON_CSV_H
#define COMMON_CSV_H

#include <stdbool.h>
#include <stddef.h>
#include <stdio.h>

enum { CSV_LINE = 8192, CSV_FIELDS = 64 };

struct csv {
    FILE *file;
    const char *path;
    unsigned long line;
    char text[CSV_LINE];
    char *fields[CSV_FIELDS]; /* of the row read last, in text */
    size_t count;
    char message[640];
};

enum csv_row { CSV_ROW, CSV_END, CSV_BAD };

/* Only a regular file is read; false leaves a message. */
bool csv_open(struct csv *csv, const char *path);

/*
 * The next row: fields between commas or semicolons, without spaces around them, or in quotes. A byte-order mark, blank
 * lines and lines that begin with # are passed over. CSV_BAD leaves a message.
 */
enum csv_row csv_read(struct csv *csv);

/* Leaves a message with file and line; CSV_BAD. */
enum csv_row csv_complain(struct csv *csv, const char *format, ...);

void csv_close(struct csv *csv);

#endif
