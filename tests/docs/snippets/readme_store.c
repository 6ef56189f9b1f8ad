/* README.md: the object on an image file. A cut leaves the file's blocks as the last sync had them, or as written since. */
#define _POSIX_C_SOURCE 200809L
#include "tries.h"

#include <unistd.h>

#include "kagutin_file.h"

static uint8_t before[KAGUTIN_BLOCK_SIZE], after[KAGUTIN_BLOCK_SIZE];
static uint8_t synced[KGT_LOG_SIZE(TRY_GROUPS) + KGT_HOMES_SIZE(TRY_HOMES)], image[sizeof synced];
static struct kgt_driver of_file;
static const char *image_path;

static void read_image(uint8_t *bytes)
{
    FILE *stream = fopen(image_path, "rb");

    try_check(stream && fread(bytes, 1, sizeof image, stream) == sizeof image, "the image can be read");
    fclose(stream);
}

/* What a sync has reached no cut takes away; a load syncs first. */
static int note_load(void *context, enum kgt_area part, size_t offset, uint8_t *bytes, size_t size)
{
    int error = of_file.load(context, part, offset, bytes, size);

    if (!error)
        read_image(synced);
    return error;
}

static int note_fence(void *context)
{
    int error = of_file.fence(context);

    if (!error)
        read_image(synced);
    return error;
}

static struct kgt_driver watched(struct kgt_driver inner)
{
    of_file = inner;
    inner.load = note_load;
    inner.fence = note_fence;
    return try_failing(inner);
}

#define kgt_file_driver(f) watched(kgt_file_driver(f))
#include "readme_store.snippet"
#undef kgt_file_driver

static void cut_file(enum try_lands lands)
{
    FILE *stream;
    size_t i;

    kgt_file_close(&file);
    read_image(image);
    for (i = 0; i < sizeof image; i += KAGUTIN_BLOCK_SIZE)
        if (!try_unit_lands(lands, i / KAGUTIN_BLOCK_SIZE))
            memcpy(image + i, synced + i, KAGUTIN_BLOCK_SIZE);
    stream = fopen(image_path, "rb+");
    try_check(stream && fwrite(image, 1, sizeof image, stream) == sizeof image, "the image can be written");
    fclose(stream);
}

static void judge_file(const struct try_case *now, bool kept, bool met)
{
    uint8_t block[KAGUTIN_BLOCK_SIZE];

    cut_file(now->lands);
    try_check(kgt_file_open(&file, image_path), "the image opens");
    try_check(kgt_read(try_opened_on(kgt_file_driver(&file)), 0, 7, block).code == KAGUTIN_DONE, "read");
    kgt_file_close(&file);
    try_check(!kept || memcmp(block, after, sizeof block) == 0, "what is called durable is there after a cut");
    try_check(kept || memcmp(block, before, sizeof block) == 0 || met, "what was refused is not there");
    try_check(memcmp(block, before, sizeof block) == 0 || memcmp(block, after, sizeof block) == 0, "one of the two blocks");
}

static bool in_keep(const struct try_case *now)
{
    bool kept, met;

    if (now->landing == KGT_LANDS_WORDS)
        return false; /* a written file keeps blocks */
    try_check(start(image_path) && keep(before), "a good file, new or not");
    try_fill(&store, now->log);
    try_arm(now);
    kept = keep(after);
    met = try_disarm();
    try_check(met || kept == (now->log <= TRY_FULL), "durable where there is room, or can be made");
    if (!kept && !met) {
        try_free(&store);
        try_check(keep(before), "and later it can be kept");
    }
    judge_file(now, kept, met);
    return met;
}

static bool in_start(const struct try_case *now)
{
    bool kept, met;

    if (now->landing == KGT_LANDS_WORDS)
        return false;
    try_check(start(image_path) && keep(before), "a good file");
    kgt_file_close(&file);
    try_arm(now);
    kept = start(image_path) && keep(after);
    met = try_disarm();
    try_check(met || kept, "durable");
    judge_file(now, kept, met);
    return met;
}

/* A file that is no image, or of another shape: not started, and nothing is kept. */
static void check_others(void)
{
    struct kgt_file other;
    FILE *stream;

    unlink(image_path);
    stream = fopen(image_path, "wb");
    try_check(stream && fputs("no image\n", stream) >= 0, "some file");
    fclose(stream);
    try_check(!start(image_path) && !keep(after), "a file that is no image");
    unlink(image_path);
    try_check(kgt_file_create(&other, image_path, TRY_GROUPS + 4, TRY_HOMES + 8), "an image of another shape");
    kgt_file_close(&other);
    try_check(!start(image_path) && !keep(after), "is refused");
    unlink(image_path);
}

int main(int count, char **words)
{
    image_path = count > 1 ? words[1] : "readme_store.img";
    try_block(before, 1);
    try_block(after, 2);
    unlink(image_path);
    try_all(in_keep);
    try_all(in_start);
    check_others();
    return try_end("readme_store");
}
