/*
 * Image files as lasting memory, on POSIX systems.
 *
 * An image holds the log area (64 + 512 x G bytes), then the home blocks (64 x
 * D bytes), and nothing else. G and D stand in its header. It is written by
 * pwrite and fdatasync, or through a mapping and msync.
 *
 * Landing, written: blocks. A disk keeps sectors whole, and an aligned block
 * of 64 bytes lies inside one. Mapped: words, since a program can be killed
 * between two stores; a group's first word then follows after a sync of its
 * own (kgt_runner).
 *
 * A file is open in one place at a time: the lock belongs to the open file,
 * not to the process. After a failed write or sync, or if the file's size has
 * changed, the file is of no more use; close it, open it anew and open the
 * store on it again. What the failed sync has left in the cache is decided
 * then: opening writes the whole image back as it reads it, and syncs.
 * Functions that return false leave a message. [S-83]
 */
#ifndef KAGUTIN_FILE_H
#define KAGUTIN_FILE_H

#include "kagutin_store.h"

#ifdef __cplusplus
extern "C" {
#endif

struct kgt_file {
    size_t groups, homes;
    int descriptor; /* -1: closed */
    uint8_t *map;   /* null: pwrite */
    size_t log_size, size;
    int failed; /* the error after which it is of no more use */
    char message[320];
};

/*
 * Makes an image of an empty store under a name that must be free: formatted
 * and synced without a name, then linked, so that a killed program leaves
 * nothing; under a temporary name in the same folder where the file system has
 * no files without one. Another process that creates the same name at the same
 * time fails. Takes heap memory while it formats.
 */
bool kgt_file_create(struct kgt_file *file, const char *path, size_t groups, size_t homes);

/*
 * Opens an image; its groups and homes are then known, and the disk holds what
 * is read from it. Refuses a file that is read-only, in use, no image, of
 * another size than its header says, or that cannot be written back.
 */
bool kgt_file_open(struct kgt_file *file, const char *path);

/*
 * Opens the image, or makes one of this shape where there is none: for every
 * start of a program. The message is that of the step that failed; an image of
 * another shape is refused.
 */
bool kgt_file_open_or_create(struct kgt_file *file, const char *path, size_t groups, size_t homes);

/* Maps an open file: its driver then writes memory, and fences by msync. */
bool kgt_file_map(struct kgt_file *file);

struct kgt_driver kgt_file_driver(struct kgt_file *file);

/* Closes it, also after a function has failed. What was not fenced may be lost. */
void kgt_file_close(struct kgt_file *file);

#ifdef __cplusplus
}
#endif

#endif
