/* The words of the command line. */
#ifndef WEAR_OPTIONS_H
#define WEAR_OPTIONS_H

#include <stdbool.h>
#include <stddef.h>
#include <stdint.h>

enum { WEAR_ANY_WRITER = 8 }; /* for each pump the lowest that has the right */

/* A second of the clock of one station, or of all that none is given for. */
struct wear_now {
    char *station; /* null: of all others */
    uint64_t second;
};

struct wear_options {
    char **images; /* the words that are no options, moved to the front */
    size_t count;
    const char *html, *csv; /* files to write */
    const char *done, *since;
    bool print_csv, all;
    uint64_t hours, writer, base;
    int64_t day;
    struct wear_now *now;
    size_t now_count;
};

/* Ends the program over wrong options, and after --help and --version. */
struct wear_options wear_read_options(int count, char **words);

/* The name of a file without its folder. */
const char *wear_name(const char *path);

/* How closely a name is an image's: 0 its path, 1 its file's name, 2 that without its ending; WEAR_NO_MATCH if it is not. */
enum { WEAR_NO_MATCH = 3 };
int wear_match(const char *path, const char *name);

#endif
