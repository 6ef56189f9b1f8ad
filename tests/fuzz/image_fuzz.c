/*
 * Any bytes as an image or a dump: the inspector, the homes by the commit rule,
 * and a store opened on a copy. Where both of the latter read the file they give
 * the same homes. The first byte chooses whether the inspector is told a shape.
 */
#include <setjmp.h>
#include <stdio.h>
#include <stdlib.h>
#include <string.h>

#include "common/copy.h"
#include "common/homes.h"
#include "common/records.h"
#include "fuzz_file.h"
#include "inspect/inspect.h"

enum { MOST_HOMES = 2000 }; /* more cost time and show nothing else */

static jmp_buf given_up;

/* The fuzzer's own messages are to be seen. */
void inspect_say(const char *format, ...)
{
    (void)format;
}

/* The inspector's way to end, back into the fuzzer. */
void inspect_quit(int status, const char *format, ...)
{
    (void)status;
    (void)format;
    longjmp(given_up, 1);
}

static void inspect(const char *path, uint8_t told)
{
    static struct image image;
    struct options options = {NULL, false, NOT_GIVEN, NOT_GIVEN, NOT_GIVEN, 0};
    struct rule_walk walk;
    struct fates fates;

    options.homes = 64;
    if (told & 1)
        options.groups = 4 + told / 16;
    memset(&image, 0, sizeof image);
    if (setjmp(given_up) == 0) {
        options.path = path;
        image_read(&image, &options);
        image_check_header(&image);
        image_choose_shape(&image, &options);
        image_check(&image);
        if (!rule_walk(&image.log, &walk) || !fates_find(&fates, &image, &walk))
            abort();
        units_check(&image, &fates);
        (told & 2 ? print_json : print_text)(&image, &walk, &fates);
        fates_free(&fates);
        rule_free(&walk);
    }
    free(image.bytes);
}

/* The library's homes are those of the rule; it refuses worn-out images and those of the older format. */
static void compare(const char *path)
{
    uint8_t block[KAGUTIN_BLOCK_SIZE];
    struct homes homes;
    struct copy copy;
    size_t home;

    if (!homes_read(&homes, path, 0, false))
        return;
    if (homes.homes <= MOST_HOMES && copy_open(&copy, path, 0)) {
        if (homes.older || homes.worn_out || copy.homes != homes.homes)
            abort();
        for (home = 0; home < homes.homes; home++)
            if (memcmp(copy.store.area + 64 * home, homes.blocks + 64 * home, sizeof block) != 0)
                abort();
        copy_close(&copy);
    }
    homes_free(&homes);
}

int LLVMFuzzerTestOneInput(const uint8_t *data, size_t size);

int LLVMFuzzerTestOneInput(const uint8_t *data, size_t size)
{
    static bool quiet;
    const char *path;

    if (size == 0)
        return 0;
    if (!quiet)
        quiet = freopen("/dev/null", "w", stdout) != NULL;
    path = fuzz_file(data + 1, size - 1);
    inspect(path, data[0]);
    compare(path);
    return 0;
}
