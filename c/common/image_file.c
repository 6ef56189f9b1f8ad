#define _DEFAULT_SOURCE 1

#include "image_file.h"

#include <errno.h>
#include <fcntl.h>
#include <stdarg.h>
#include <stdio.h>
#include <stdlib.h>
#include <string.h>
#include <sys/file.h>
#include <sys/stat.h>
#include <unistd.h>

enum { HEADER = 64, COPY = 32, USED = 12 };

static bool say(struct image_file *file, const char *format, ...)
{
    va_list arguments;

    va_start(arguments, format);
    vsnprintf(file->message, sizeof file->message, format, arguments);
    va_end(arguments);
    return false;
}

/* ---- a dump's header ---- */

static bool whole(const uint8_t *copy)
{
    size_t i;

    for (i = 0; i < USED; i++)
        if ((copy[i] ^ copy[USED + i]) != 0xFF)
            return false;
    return true;
}

/* Is the start of one copy above that of the other? */
static bool later(const uint8_t *one, const uint8_t *other)
{
    size_t i;

    for (i = 7; i >= 2; i--)
        if (one[i] != other[i])
            return one[i] > other[i];
    return false;
}

static enum image_file_header look_at(const uint8_t *copy, const uint8_t *counts)
{
    static const uint8_t none[2 * USED] = {0};

    if (whole(copy))
        return memcmp(copy, counts, USED) == 0 ? HEADER_SAME : HEADER_OLDER;
    return memcmp(copy, none, sizeof none) == 0 ? HEADER_UNWRITTEN : HEADER_TORN;
}

/* Puts the header that counts in the place of the two copies. */
static void join_header(struct image_file *file)
{
    uint8_t copies[HEADER];
    bool first, second;

    memcpy(copies, file->bytes, HEADER);
    first = whole(copies);
    second = whole(copies + COPY);
    file->dump = file->size >= HEADER && (first || second);
    if (!file->dump)
        return;
    file->copy = !first || (second && later(copies + COPY, copies));
    file->the_other = look_at(copies + COPY * (1 - file->copy), copies + COPY * file->copy);
    memset(file->bytes, 0, HEADER);
    memcpy(file->bytes, copies + COPY * file->copy, USED);
}

void image_file_split_header(const uint8_t header[64], uint8_t copies[64])
{
    size_t i;

    memset(copies, 0, HEADER);
    for (i = 0; i < USED; i++) {
        copies[i] = copies[COPY + i] = header[i];
        copies[USED + i] = copies[COPY + USED + i] = (uint8_t)~header[i];
    }
}

/* Does an image, of this format or the older one, begin with these 64 bytes? */
static bool is_image(const uint8_t *header)
{
    size_t i;

    for (i = USED; i < HEADER; i++)
        if (header[i])
            return false;
    return header[0] == 0x50 && (header[1] == 0x54 || header[1] == 0x48);
}

/* ---- reading ---- */

/* At the base, or at 0 for an image. */
static uint64_t find_begin(int descriptor, uint64_t base)
{
    uint8_t front[HEADER], there[HEADER];

    if (base == 0 || pread(descriptor, front, HEADER, 0) != HEADER || !is_image(front))
        return base;
    if (pread(descriptor, there, HEADER, (off_t)base) == HEADER && (whole(there) || whole(there + COPY)))
        return base;
    return 0;
}

static bool read_bytes(struct image_file *file, const char *path, int descriptor)
{
    size_t most = file->size < IMAGE_FILE_MOST ? (size_t)file->size : IMAGE_FILE_MOST;

    file->bytes = (uint8_t *)calloc(1, most < HEADER ? HEADER : most);
    if (!file->bytes)
        return say(file, "%s: out of memory", path);
    while (file->read < most) {
        ssize_t count = pread(descriptor, file->bytes + file->read, most - file->read, (off_t)(file->base + file->read));

        if (count < 0 && errno == EINTR)
            continue;
        if (count < 0)
            return say(file, "%s: cannot be read: %s", path, strerror(errno));
        if (count == 0) { /* it has shrunk meanwhile */
            file->size = file->read;
            break;
        }
        file->read += (size_t)count;
    }
    return true;
}

/* ---- a store that begins elsewhere ---- */

/* Does a whole copy of a dump's header stand here, of this format or the older one? */
static bool is_copy(const uint8_t *bytes)
{
    return bytes[0] == 0x50 && (bytes[1] == 0x54 || bytes[1] == 0x48) && whole(bytes);
}

/* Can the two be copies of one header, torn or whole? Then they have the same mark, groups and homes. */
static bool are_alike(const uint8_t *one, const uint8_t *other)
{
    return memcmp(one, other, 2) == 0 && memcmp(one + 8, other + 8, USED - 8) == 0;
}

/* Names the first store that has a whole copy of its header among these bytes of the file, of which 32 before it are seen. */
static bool find_store(struct image_file *file, const uint8_t *bytes, size_t size, uint64_t from)
{
    size_t at;

    for (at = from ? COPY : 0; at + COPY <= size; at++)
        if (is_copy(bytes + at)) {
            file->elsewhere = true;
            file->found = from + at - (at >= COPY && are_alike(bytes + at - COPY, bytes + at) ? COPY : 0);
            return true;
        }
    return false;
}

/* Looks for a store from a header's length before the base on. */
static void look_for_store(struct image_file *file, int descriptor)
{
    uint8_t around[3 * HEADER];
    uint64_t from = file->base > HEADER + COPY ? file->base - HEADER - COPY : 0;
    ssize_t size = pread(descriptor, around, sizeof around, (off_t)from);

    if (size <= 0 || !find_store(file, around, (size_t)size, from))
        find_store(file, file->bytes, file->read, file->base);
}

/* Is the base one copy of a header too late or too early? Everything would be read 32 bytes off. */
static bool is_off(struct image_file *file, int descriptor)
{
    uint8_t near[4 * COPY] = {0}, *here = near + COPY;
    size_t before = file->base < COPY ? 0 : COPY;
    bool late, early;

    if (pread(descriptor, here - before, 3 * COPY + before, (off_t)(file->base - before)) < 0)
        return false;
    late = before && is_copy(here) && are_alike(here - COPY, here);
    early = !late && is_copy(here + COPY) && !are_alike(here, here + COPY) && are_alike(here + COPY, here + 2 * COPY);
    file->found = late ? file->base - COPY : file->base + COPY;
    return late || early;
}

/* Is this a dump's header, damaged in both copies? Most bytes of one of them then fit their complements. */
static bool is_damaged_dump(const uint8_t *copies)
{
    size_t copy, i, fit;

    for (copy = 0; copy < HEADER; copy += COPY) {
        for (fit = i = 0; i < USED; i++)
            fit += (copies[copy + i] ^ copies[copy + USED + i]) == 0xFF;
        if (fit > USED / 2)
            return true;
    }
    return false;
}

const char *image_file_hint(const struct image_file *file, char text[IMAGE_FILE_HINT])
{
    uint64_t away = file->found < file->base ? file->base - file->found : file->found - file->base;
    bool near = file->elsewhere && away < HEADER; /* a base that is a little wrong shows most of a header, too */

    text[0] = '\0';
    if (!near && !file->dump && is_damaged_dump(file->bytes))
        snprintf(text, IMAGE_FILE_HINT,
                 "; a dump whose header is damaged in both copies, which 'kagutin inspect' reads all the same");
    else if (file->elsewhere)
        snprintf(text, IMAGE_FILE_HINT, "; a store begins at byte %llu: --base %llu", (unsigned long long)file->found,
                 (unsigned long long)file->found);
    return text;
}

static bool read_file(struct image_file *file, const char *path, int descriptor, uint64_t base, enum image_file_use use)
{
    struct stat status;

    if (fstat(descriptor, &status) != 0)
        return say(file, "%s: cannot be looked at: %s", path, strerror(errno));
    if (!S_ISREG(status.st_mode))
        return say(file, "%s: not a regular file", path);
    if (use == IMAGE_FILE_FREE && flock(descriptor, LOCK_SH | LOCK_NB) != 0 && errno == EWOULDBLOCK)
        return say(file, "%s: in use", path);
    if (status.st_size == 0)
        return say(file, "%s: the file is empty", path);
    file->base = find_begin(descriptor, base);
    if (file->base >= (uint64_t)status.st_size)
        return say(file, "%s: it has %lld bytes, and none from %llu on", path, (long long)status.st_size,
                   (unsigned long long)base);
    if (is_off(file, descriptor))
        return say(file, "%s: the store begins at byte %llu, not at %llu: --base %llu", path, (unsigned long long)file->found,
                   (unsigned long long)file->base, (unsigned long long)file->found);
    file->size = (uint64_t)status.st_size - file->base;
    if (!read_bytes(file, path, descriptor))
        return false;
    join_header(file);
    if (!is_image(file->bytes))
        look_for_store(file, descriptor);
    return true;
}

bool image_file_read(struct image_file *file, const char *path, uint64_t base, enum image_file_use use)
{
    int descriptor = open(path, O_RDONLY | O_NONBLOCK | O_CLOEXEC); /* does not wait at a FIFO */
    bool done;

    memset(file, 0, sizeof *file);
    if (descriptor < 0)
        return say(file, "%s: cannot be opened: %s", path, strerror(errno));
    done = read_file(file, path, descriptor, base, use);
    close(descriptor);
    if (!done)
        image_file_free(file);
    return done;
}

void image_file_free(struct image_file *file)
{
    free(file->bytes);
    file->bytes = NULL;
}
