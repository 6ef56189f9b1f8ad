/* Lists of readings from CSV files, and why a file is not one. */
#ifndef GAUGES_READINGS_H
#define GAUGES_READINGS_H

#include <stdbool.h>
#include <stddef.h>
#include <stdint.h>

#include "kagutin_gauges.h"
#include "times.h"

struct reading {
    int64_t day;
    uint16_t minute, level;
};

/* All rows of a file. */
struct readings_file {
    const char *path;
    enum time_kind kind;
    size_t count, room;
    struct reading *rows;
};

/* Those of one day, as the library compares them. */
struct readings {
    const char *path;
    enum time_kind kind;
    size_t count;
    uint16_t minute[KAGUTIN_MAX_READINGS], level[KAGUTIN_MAX_READINGS];
};

/*
 * Reads rows "time, millimetres" separated by a comma, semicolon or tab; all
 * times of a file are of one kind. Blank lines, lines that begin with '#' and a
 * first line of two cells or more without a digit, which is a heading, are
 * passed over. If the file cannot be read, a row is wrong or there is none,
 * `trouble` says so, with file and line.
 */
bool readings_load(struct readings_file *file, const char *path, char *trouble, size_t trouble_size);
void readings_free(struct readings_file *file);

/* The first day after this one that the file has rows of; false if there is none. */
bool readings_next_day(const struct readings_file *file, int64_t after, int64_t *day);

/* The rows of a day; none, if the file has none. */
void readings_of_day(const struct readings_file *file, int64_t day, struct readings *readings);

/* The rows as the strip that the library takes; returns its length. */
size_t readings_strip(const struct readings *readings, uint8_t *strip);

/* The millimetres at a minute; false if the list has none. */
bool readings_at(const struct readings *readings, uint16_t minute, uint16_t *level);

#endif
