/* A store opened on a copy of an image or a dump: its driver loads what was read, and drops what is written. */
#include "copy.h"

#include <stdarg.h>
#include <stdio.h>
#include <stdlib.h>
#include <string.h>

#include "image_file.h"

static bool say(struct copy *copy, const char *format, ...)
{
    va_list arguments;

    va_start(arguments, format);
    vsnprintf(copy->message, sizeof copy->message, format, arguments);
    va_end(arguments);
    return false;
}

static int load(void *context, enum kgt_area area, size_t at, uint8_t *bytes, size_t size)
{
    const struct copy *copy = (const struct copy *)context;

    memcpy(bytes, copy->image + (area == KGT_LOG ? at : KGT_LOG_SIZE(copy->groups) + at), size);
    return 0;
}

static int drop(void *context, enum kgt_area area, size_t at, const uint8_t *bytes, size_t size)
{
    (void)context, (void)area, (void)at, (void)bytes, (void)size;
    return 0;
}

static int pass(void *context)
{
    (void)context;
    return 0;
}

static size_t number16(const uint8_t *bytes)
{
    return (size_t)bytes[0] | (size_t)bytes[1] << 8;
}

/* Finds the shape, and holds the size against it; a dump may have more behind. */
static bool check_shape(struct copy *copy, const char *path, const struct image_file *file)
{
    char hint[IMAGE_FILE_HINT];
    size_t size, i;

    if (file->size < KAGUTIN_HEADER_SIZE)
        return say(copy, "%s: no image: it has %llu bytes", path, (unsigned long long)file->size);
    if (copy->image[0] == 0x50 && copy->image[1] == 0x48)
        return say(copy,
                   "%s: an image of the older format (mark 50 48); 'kagutin export' and 'kagutin import' carry its homes into a "
                   "new image",
                   path);
    if (copy->image[0] != 0x50 || copy->image[1] != 0x54)
        return say(copy, "%s: no image: the header's mark is %02X %02X, not 50 54%s", path, copy->image[0], copy->image[1],
                   image_file_hint(file, hint));
    for (i = 12; i < KAGUTIN_HEADER_SIZE; i++)
        if (copy->image[i])
            return say(copy, "%s: damaged header: byte %lu is not zero%s", path, (unsigned long)i, image_file_hint(file, hint));
    copy->groups = number16(copy->image + 8);
    copy->homes = number16(copy->image + 10);
    size = KGT_LOG_SIZE(copy->groups) + KGT_HOMES_SIZE(copy->homes);
    if (file->dump ? file->size < size : file->size != size)
        return say(copy, "%s: %s file: %llu bytes; %lu groups and %lu homes take %lu", path, file->size < size ? "short" : "long",
                   (unsigned long long)file->size, (unsigned long)copy->groups, (unsigned long)copy->homes, (unsigned long)size);
    return true;
}

static bool open_store(struct copy *copy, const char *path)
{
    struct kgt_driver driver = {NULL, load, drop, pass, KGT_LANDS_BLOCKS};
    size_t size = KGT_MEMORY_SIZE(copy->groups, copy->homes);
    uint64_t code;

    driver.context = copy;
    copy->memory = (uint8_t *)malloc(size);
    if (!copy->memory)
        return say(copy, "%s: out of memory", path);
    code = kgt_init(&copy->store, copy->memory, size, copy->groups, copy->homes, driver).code;
    if (code == KAGUTIN_DONE)
        code = kgt_open(&copy->store).code;
    if (code == KAGUTIN_WORN_OUT)
        return say(copy, "%s: worn out; 'kagutin export' and 'kagutin import' carry its homes into a new image", path);
    return code == KAGUTIN_DONE || say(copy, "%s: cannot be opened: %s", path, kgt_answer_text(code));
}

bool copy_open(struct copy *copy, const char *path, uint64_t base)
{
    struct image_file file;

    memset(copy, 0, sizeof *copy);
    if (!image_file_read(&file, path, base, IMAGE_FILE_FREE))
        return say(copy, "%s", file.message);
    copy->image = file.bytes;
    copy->dump = file.dump;
    if (check_shape(copy, path, &file) && open_store(copy, path))
        return true;
    copy_close(copy);
    return false;
}

void copy_close(struct copy *copy)
{
    free(copy->image);
    free(copy->memory);
    copy->image = copy->memory = NULL;
}
