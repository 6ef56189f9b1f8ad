#include "homes.h"

#include <stdarg.h>
#include <stdio.h>
#include <stdlib.h>
#include <string.h>

#include "image_file.h"
#include "rule.h"

enum { HEADER = 64, GROUP = 512, BLOCK = 64 };

static bool say(struct homes *homes, const char *format, ...)
{
    va_list arguments;

    va_start(arguments, format);
    vsnprintf(homes->message, sizeof homes->message, format, arguments);
    va_end(arguments);
    return false;
}

/* Finds the shape in a header without a fault, and holds the size against it; a dump may have more behind. */
static bool check_shape(struct homes *homes, const char *path, const struct image_file *file)
{
    const uint8_t *header = file->bytes;
    uint64_t most = (uint64_t)1 << 47, size;
    char hint[IMAGE_FILE_HINT];
    size_t i;

    homes->older = header[0] == 0x50 && header[1] == 0x48;
    homes->start = rule_number(header + 2, 6);
    homes->groups = (size_t)rule_number(header + 8, 2);
    homes->homes = (size_t)rule_number(header + 10, 2);
    homes->worn_out = homes->start + homes->groups > most;
    if (file->size < HEADER)
        return say(homes, "%s: no image: it has %llu bytes", path, (unsigned long long)file->size);
    if (header[0] != 0x50 || (header[1] != 0x54 && !homes->older))
        return say(homes, "%s: no image: the header's mark is %02X %02X, not 50 54%s", path, header[0], header[1],
                   image_file_hint(file, hint));
    for (i = 12; i < HEADER; i++)
        if (header[i])
            return say(homes, "%s: damaged header: byte %lu is not zero%s", path, (unsigned long)i, image_file_hint(file, hint));
    if (homes->start > most)
        return say(homes, "%s: damaged header: its start is above 2^47", path);
    if (homes->groups < 4 || homes->groups > 1024 || homes->homes < 1)
        return say(homes, "%s: damaged header: %lu groups, %lu homes", path, (unsigned long)homes->groups,
                   (unsigned long)homes->homes);
    size = (uint64_t)HEADER + GROUP * homes->groups + BLOCK * homes->homes;
    if (file->dump ? file->size < size : file->size != size)
        return say(homes, "%s: %s file: %llu bytes; %lu groups and %lu homes take %llu", path,
                   file->size < size ? "short" : "long", (unsigned long long)file->size, (unsigned long)homes->groups,
                   (unsigned long)homes->homes, (unsigned long long)size);
    return true;
}

/* The entries of a commit into the blocks. */
static void apply(struct homes *homes, const struct rule_log *log, const struct rule_commit *commit)
{
    uint64_t position;

    for (position = commit->first; position <= commit->closing; position++) {
        struct tag tag;

        if (!rule_present(log, position))
            continue;
        tag = rule_tag(log, position);
        if (tag.kind != TAG_NOTHING && position - tag.back == commit->first)
            rule_block(log, position, homes->blocks + BLOCK * tag.home);
    }
}

static bool find_blocks(struct homes *homes, const char *path)
{
    struct rule_log log = {homes->image, homes->groups, homes->homes, homes->start, homes->older};
    struct rule_walk walk;
    size_t i;

    homes->blocks = (uint8_t *)malloc(BLOCK * homes->homes);
    if (!homes->blocks || !rule_walk(&log, &walk))
        return say(homes, "%s: out of memory", path);
    memcpy(homes->blocks, homes->image + HEADER + GROUP * homes->groups, BLOCK * homes->homes);
    for (i = 0; i < walk.commit_count; i++)
        apply(homes, &log, &walk.commits[i]);
    rule_free(&walk);
    return true;
}

bool homes_read(struct homes *homes, const char *path, uint64_t base, bool in_use)
{
    struct image_file file;

    memset(homes, 0, sizeof *homes);
    if (!image_file_read(&file, path, base, in_use ? IMAGE_FILE_IN_USE : IMAGE_FILE_FREE))
        return say(homes, "%s", file.message);
    homes->image = file.bytes;
    homes->dump = file.dump;
    if (check_shape(homes, path, &file) && find_blocks(homes, path))
        return true;
    homes_free(homes);
    return false;
}

void homes_free(struct homes *homes)
{
    free(homes->image);
    free(homes->blocks);
    homes->image = homes->blocks = NULL;
}
