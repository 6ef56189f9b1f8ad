/* Shared by the two files of the file driver. */
#ifndef KAGUTIN_FILE_INNER_H
#define KAGUTIN_FILE_INNER_H

#include "kagutin_file.h"

/* Leaves a message and returns false. */
bool kgt_file_say(struct kgt_file *file, const char *format, ...);

/* Waits until all that was written is on the disk. */
int kgt_file_sync(struct kgt_file *file);

/*
 * Makes the disk hold what is read from the file: reads all of it, writes the
 * same bytes and syncs. The cache may show writes that a sync could not bring to
 * the disk, and take them for clean.
 */
int kgt_file_write_back(struct kgt_file *file);

#endif
