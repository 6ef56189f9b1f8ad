/* Files that hold a store: images, and raw dumps of a serial FRAM. */
#ifndef COMMON_IMAGE_FILE_H
#define COMMON_IMAGE_FILE_H

#include <stdbool.h>
#include <stddef.h>
#include <stdint.h>

enum { IMAGE_FILE_HINT = 120 };

/* The largest image, in bytes. */
#define IMAGE_FILE_MOST (64u + 512u * 1024u + 64u * 65535u)

/* A copy of a dump's header beside the one that counts. */
enum image_file_header { HEADER_OLDER, HEADER_SAME, HEADER_UNWRITTEN, HEADER_TORN };

/*
 * A file as it was read. In a dump the first twelve bytes of the header stand
 * twice, at 0 and at 32, each time followed by their complements; bytes has
 * the header of the copy that counts, the whole one with the higher start, as
 * the driver takes it. A chip is mostly larger than what it holds: a dump may
 * have more bytes behind.
 */
struct image_file {
    uint8_t *bytes; /* as many as were read, and a header's 64 at least; what the file lacks of it is zeros */
    size_t read;    /* the file's bytes from the base on, up to IMAGE_FILE_MOST */
    uint64_t size;  /* of the whole file, from the base on */
    uint64_t base;  /* where the store begins in the file */
    bool dump;
    unsigned copy;                    /* of a dump: the copy that counts, 0 or 1 */
    enum image_file_header the_other; /* of a dump: the other copy */
    bool elsewhere; /* no store begins at the base, and one does elsewhere, where found says: to be named in a message */
    uint64_t found;
    char message[320];
};

/* Whether a file that a station has open is read all the same. */
enum image_file_use { IMAGE_FILE_FREE, IMAGE_FILE_IN_USE };

/*
 * Reads a regular file from a base on; false leaves a message. Files of any
 * size are read, up to the largest image; what the bytes are is not asked. An
 * image begins where its file does: the base is passed over if no dump's header
 * stands there and an image's stands at 0. A base that is 32 bytes off, at or
 * before one copy of a dump's header, is refused with the right one.
 */
bool image_file_read(struct image_file *file, const char *path, uint64_t base, enum image_file_use use);

void image_file_free(struct image_file *file);

/* For messages about a header that is none: "; a store begins at byte N: --base N", or that both copies of a dump's are damaged, or nothing. */
const char *image_file_hint(const struct image_file *file, char text[IMAGE_FILE_HINT]);

/* The 64 bytes of a dump's header: both copies, the same. */
void image_file_split_header(const uint8_t header[64], uint8_t copies[64]);

#endif
