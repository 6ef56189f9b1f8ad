/* A store opened on a copy of an image, or of a raw dump of a serial FRAM: the file is read, and never written. */
#ifndef COMMON_COPY_H
#define COMMON_COPY_H

#include "kagutin_store.h"

struct copy {
    struct kagutin store;
    size_t groups, homes;
    bool dump;
    uint8_t *image;  /* as it was read */
    uint8_t *memory; /* lent to the store */
    char message[400];
};

/* Reads the file, a dump from a base on, and opens a store on the copy; false leaves a message. */
bool copy_open(struct copy *copy, const char *path, uint64_t base);

void copy_close(struct copy *copy);

#endif
