/* What the file is too short for: slots and homes that were not read. */
#include <stdio.h>

#include "inspect.h"

static bool knows(const struct image *image, const struct fates *fates, size_t home)
{
    return home < image->homes_read || (fates->newest[home] && image->slots_read == image->log.groups);
}

bool image_knows(const struct image *image, const struct fates *fates, size_t first, size_t number)
{
    size_t home;

    for (home = first; home < first + number; home++)
        if (!knows(image, fates, home))
            return false;
    return true;
}

/* The next run of homes that are not known, from one on; false if there is none. */
static bool next_run(const struct image *image, const struct fates *fates, size_t from, size_t run[2])
{
    for (; from < image->log.homes && knows(image, fates, from); from++)
        ;
    run[0] = from;
    for (; from < image->log.homes && !knows(image, fates, from); from++)
        ;
    run[1] = from - 1;
    return run[0] < image->log.homes;
}

static void text_run(const char *before, size_t first, size_t last)
{
    printf(first == last ? "%s%lu" : "%s%lu to %lu", before, (unsigned long)first, (unsigned long)last);
}

void text_not_read(const struct image *image, const struct fates *fates)
{
    size_t run[2], at = 0;
    bool any = false;

    if (image->file_size >= image->image_size)
        return;
    printf("short   NOT READ, " NOT_READ " after %llu of %lu bytes: ", (unsigned long long)image->file_size,
           (unsigned long)image->image_size);
    if (image->slots_read < image->log.groups)
        text_run("slots ", image->slots_read, image->log.groups - 1);
    for (; next_run(image, fates, at, run); at = run[1] + 1) {
        const char *before = image->slots_read < image->log.groups ? "; homes " : "homes ";

        text_run(any ? ", " : before, run[0], run[1]);
        any = true;
    }
    puts(any || image->slots_read < image->log.groups ? "" : "a part of homes that the log gives anew");
}

void json_not_read(const struct image *image, const struct fates *fates)
{
    size_t run[2], at = 0;
    bool any = false;

    if (image->file_size >= image->image_size) {
        fputs("\"not_read\":null,", stdout);
        return;
    }
    fputs("\"not_read\":{\"slots\":", stdout);
    if (image->slots_read < image->log.groups)
        printf("{\"first\":%lu,\"last\":%lu}", (unsigned long)image->slots_read, (unsigned long)image->log.groups - 1);
    else
        fputs("null", stdout);
    fputs(",\"homes\":[", stdout);
    for (; next_run(image, fates, at, run); at = run[1] + 1) {
        printf("%s{\"first\":%lu,\"last\":%lu}", any ? "," : "", (unsigned long)run[0], (unsigned long)run[1]);
        any = true;
    }
    fputs("]},", stdout);
}
