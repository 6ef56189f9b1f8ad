/*
 * The homes of an image or a dump, as an opening leaves them: found by the
 * commit rule alone, without the library. So they can be had from a worn-out
 * image, which no opening takes, and from one of the older format.
 */
#ifndef COMMON_HOMES_H
#define COMMON_HOMES_H

#include <stdbool.h>
#include <stddef.h>
#include <stdint.h>

struct homes {
    size_t groups, homes;
    uint64_t start;
    bool dump, older, worn_out;
    uint8_t *image;  /* 64 + 512 x groups + 64 x homes bytes, as they were read */
    uint8_t *blocks; /* 64 bytes for each home */
    char message[400];
};

/*
 * Reads a file whose header is sound; false leaves a message. base: where a
 * dump's image begins in it. Also a file that a station has open, if in_use.
 */
bool homes_read(struct homes *homes, const char *path, uint64_t base, bool in_use);

void homes_free(struct homes *homes);

#endif
