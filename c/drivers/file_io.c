/* Reading, writing and syncing image files. */
#define _DEFAULT_SOURCE 1

#include "kagutin_file_inner.h"

#include <errno.h>
#include <stdarg.h>
#include <stdio.h>
#include <string.h>
#include <sys/mman.h>
#include <sys/stat.h>
#include <unistd.h>

#define WORD 8u

bool kgt_file_say(struct kgt_file *file, const char *format, ...)
{
    va_list arguments;

    va_start(arguments, format);
    vsnprintf(file->message, sizeof file->message, format, arguments);
    va_end(arguments);
    return false;
}

/* From now on every function of the driver fails with this error. */
static int fail(struct kgt_file *file, int error, const char *what)
{
    file->failed = error ? error : EIO;
    kgt_file_say(file, "%s: %s", what, strerror(file->failed));
    return file->failed;
}

/* A file that has shrunk cannot be mapped safely, and has lost blocks. */
static int check_size(struct kgt_file *file)
{
    struct stat status;

    if (file->failed)
        return file->failed;
    if (fstat(file->descriptor, &status) != 0)
        return fail(file, errno, "the image cannot be looked at");
    if (status.st_size == (off_t)file->size)
        return 0;
    file->failed = EIO;
    kgt_file_say(file, "the image has become %lld bytes, it was %lu", (long long)status.st_size, (unsigned long)file->size);
    return file->failed;
}

int kgt_file_sync(struct kgt_file *file)
{
    int result = check_size(file);

    if (result)
        return result;
    do
        result = file->map ? msync(file->map, file->size, MS_SYNC) : fdatasync(file->descriptor);
    while (result != 0 && errno == EINTR);
    return result == 0 ? 0 : fail(file, errno, "the image cannot be synced");
}

static int fence(void *context)
{
    return kgt_file_sync((struct kgt_file *)context);
}

static size_t offset(const struct kgt_file *file, enum kgt_area area, size_t at)
{
    return area == KGT_LOG ? at : file->log_size + at;
}

/* Whole words, each by one store: a program that is killed in between leaves no part of one. */
static void copy_words(uint8_t *to, const uint8_t *from, size_t size)
{
    size_t i;

    for (i = 0; i + WORD <= size; i += WORD) {
        uint64_t word;

        memcpy(&word, from + i, WORD);
#if defined(__GNUC__)
        __atomic_store_n((uint64_t *)(void *)(to + i), word, __ATOMIC_RELAXED);
#else
        *(volatile uint64_t *)(void *)(to + i) = word;
#endif
    }
}

static int write_mapped(void *context, enum kgt_area area, size_t at, const uint8_t *bytes, size_t size)
{
    struct kgt_file *file = (struct kgt_file *)context;
    int error = check_size(file);

    if (!error)
        copy_words(file->map + offset(file, area, at), bytes, size);
    return error;
}

/* The cache takes a write page by page, and a page ends where a block does. */
static int put(struct kgt_file *file, size_t from, const uint8_t *bytes, size_t size)
{
    size_t done = 0;

    while (done < size) {
        ssize_t count = pwrite(file->descriptor, bytes + done, size - done, (off_t)(from + done));

        if (count > 0)
            done += (size_t)count;
        else if (count == 0 || errno != EINTR)
            return fail(file, count == 0 ? EIO : errno, "the image cannot be written");
    }
    return 0;
}

static int get(struct kgt_file *file, size_t from, uint8_t *bytes, size_t size)
{
    size_t done = 0;

    while (done < size) {
        ssize_t count = pread(file->descriptor, bytes + done, size - done, (off_t)(from + done));

        if (count > 0)
            done += (size_t)count;
        else if (count == 0 || errno != EINTR)
            return fail(file, count == 0 ? EIO : errno, "the image cannot be read");
    }
    return 0;
}

static int write_file(void *context, enum kgt_area area, size_t at, const uint8_t *bytes, size_t size)
{
    struct kgt_file *file = (struct kgt_file *)context;
    int error = check_size(file); /* a write past the end would make a file long again that has lost blocks */

    return error ? error : put(file, offset(file, area, at), bytes, size);
}

/*
 * What the cache holds is synced first: nothing is loaded that a cut could still
 * take away. A sync is enough, since all of the image was written when the file
 * was made or opened, and no sync has failed from then on.
 */
static int load(void *context, enum kgt_area area, size_t at, uint8_t *bytes, size_t size)
{
    struct kgt_file *file = (struct kgt_file *)context;
    size_t from = offset(file, area, at);
    int error = kgt_file_sync(file);

    if (error || !file->map)
        return error ? error : get(file, from, bytes, size);
    memcpy(bytes, file->map + from, size);
    return 0;
}

int kgt_file_write_back(struct kgt_file *file)
{
    uint8_t page[4096];
    size_t at, size;

    for (at = 0; at < file->size; at += size) {
        int error;

        size = file->size - at < sizeof page ? file->size - at : sizeof page;
        error = get(file, at, page, size);
        if (!error)
            error = put(file, at, page, size);
        if (error)
            return error;
    }
    return kgt_file_sync(file);
}

bool kgt_file_map(struct kgt_file *file)
{
    void *map = mmap(NULL, file->size, PROT_READ | PROT_WRITE, MAP_SHARED, file->descriptor, 0);

    if (map == MAP_FAILED)
        return kgt_file_say(file, "the image cannot be mapped: %s", strerror(errno));
    file->map = (uint8_t *)map;
    return true;
}

struct kgt_driver kgt_file_driver(struct kgt_file *file)
{
    struct kgt_driver driver;

    driver.context = file;
    driver.load = load;
    driver.write = file->map ? write_mapped : write_file;
    driver.fence = fence;
    driver.landing = file->map ? KGT_LANDS_WORDS : KGT_LANDS_BLOCKS;
    return driver;
}
