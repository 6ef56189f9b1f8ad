/* A store opened on an image file, to be changed. */
#ifndef COMMON_WORK_H
#define COMMON_WORK_H

#include "copy.h"
#include "kagutin_file.h"
#include "kagutin_rights.h"

struct work {
    struct kgt_file file;
    struct kagutin store;
    uint8_t *memory; /* lent to the store */
    char message[400];
};

/*
 * Opens a copy of an image to try a change on. Opening the image itself writes
 * to it, so a change that the copy refuses leaves the file byte for byte as it
 * is. False leaves a message; a dump is not changed in place.
 */
bool work_try(struct copy *copy, const char *path);

/* Opens file and store, which writes to the image as every opening does; false leaves a message. */
bool work_open(struct work *work, const char *path);
void work_close(struct work *work);

/* May the writer store to all of these homes, or read them? */
bool work_may_store(const struct kgt_rights *list, uint64_t writer, uint64_t first, uint64_t number);
bool work_may_read(const struct kgt_rights *list, uint64_t writer, uint64_t first, uint64_t number);

/* The lowest writer whom the list, or none, lets store to all of these homes, or read them; KAGUTIN_WRITERS if nobody. */
uint64_t work_storer(const struct kgt_rights *list, uint64_t first, uint64_t number);
uint64_t work_reader(const struct kgt_rights *list, uint64_t first, uint64_t number);

#endif
