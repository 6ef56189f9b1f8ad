/* New files of bytes, never half written and never in the place of another. */
#ifndef COMMON_NEW_FILE_H
#define COMMON_NEW_FILE_H

#include <stdbool.h>
#include <stddef.h>
#include <stdint.h>

/*
 * Writes the bytes to a file without a name, or under a temporary one in the
 * same folder where there is no such, syncs, and gives the file its name, which
 * must be free. False leaves a message and no file.
 */
bool new_file_write(const char *path, const uint8_t *bytes, size_t size, char *message, size_t message_size);

#endif
