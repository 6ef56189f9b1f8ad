/* A table of depth bands as a text file, and what is wrong with one. */
#ifndef BANDS_TABLE_H
#define BANDS_TABLE_H

#include <stdbool.h>
#include <stddef.h>
#include <stdint.h>

#include "kagutin_bands.h"

struct table_row {
    unsigned long line, from, to, pumps;
};

/* One row more than a table may have, so that a 33rd is noticed. */
struct table {
    const char *path;
    size_t count;
    struct table_row rows[KAGUTIN_MAX_BANDS + 1];
    uint8_t strip[KAGUTIN_BAND_SIZE * (KAGUTIN_MAX_BANDS + 1)];
    char message[400];
};

/* Reads "from to pumps" a line; false leaves a message with file and line. */
bool table_read(struct table *table, const char *path);

/* Says, with lines, why the library answers 11, 12 or 13 to the table. */
void table_explain(struct table *table, uint64_t code, uint64_t millimetre);

#endif
