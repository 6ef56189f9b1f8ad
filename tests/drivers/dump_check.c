/*
 * A store on a simulated serial FRAM, its chip dumped to a file at every cut:
 * the homes that the tools' readers find in the dump are those that the
 * driver's next opening gives. Arguments: a folder, a number of cuts.
 */
#include <stdio.h>
#include <stdlib.h>
#include <string.h>

#include "../common/play.h"
#include "common/copy.h"
#include "common/homes.h"
#include "kagutin_fram.h"

enum { GROUPS = 5, HOMES = 9, CHIP = 4096 };

static uint8_t memory[KGT_MEMORY_SIZE(GROUPS, HOMES)], scratch[KGT_FORMAT_SIZE(GROUPS, HOMES)];
static uint8_t chip[CHIP];
static uint64_t left; /* bytes until power fails */
static bool enabled, off;
static struct kagutin store;
static struct kgt_fram fram;
static struct play play;
static unsigned long second_copies;

static void check(bool right, const char *what, unsigned long at)
{
    if (right)
        return;
    printf("dump_check: wrong: %s, at cut %lu: %s\n", what, at, play.wrong ? play.wrong : "");
    exit(1);
}

static int transfer(void *bus, const uint8_t *command, size_t command_size, const uint8_t *out, uint8_t *in, size_t size)
{
    size_t at, i;

    (void)bus;
    if (off)
        return 5;
    if (command_size == 1) {
        enabled = command[0] == 0x06;
        return 0;
    }
    at = (size_t)command[1] << 8 | command[2];
    check(command_size == 3 && at + size <= CHIP, "an address", at);
    for (i = 0; i < size && command[0] == 0x03; i++)
        in[i] = chip[at + i];
    for (i = 0; i < size && command[0] == 0x02 && enabled; i++) {
        if (left-- == 0) {
            off = true;
            return 5;
        }
        chip[at + i] = out[i];
    }
    enabled = false;
    return 0;
}

static void power_on(uint64_t bytes)
{
    left = bytes;
    off = enabled = false;
    kgt_fram_init(&fram, GROUPS, 0, 2, transfer, NULL);
    check(kgt_init(&store, memory, sizeof memory, GROUPS, HOMES, kgt_fram_driver(&fram)).code == KAGUTIN_DONE, "init", 0);
}

static void dump(const char *path)
{
    FILE *file = fopen(path, "wb");
    bool written = file && fwrite(chip, 1, sizeof chip, file) == sizeof chip;

    check(file && fclose(file) == 0 && written, "a dump's file", 0);
}

/* Both readers against the driver. */
static void compare(const char *path, unsigned long at)
{
    uint8_t block[KAGUTIN_BLOCK_SIZE], copied[KAGUTIN_BLOCK_SIZE];
    struct homes homes;
    struct copy copy;
    size_t home;

    check(homes_read(&homes, path, 0, false), "the dump by the commit rule", at);
    check(copy_open(&copy, path, 0), "the dump by the library", at);
    check(homes.dump && homes.groups == GROUPS && homes.homes == HOMES && copy.homes == HOMES, "its shape", at);
    for (home = 0; home < HOMES; home++) {
        check(kgt_read(&store, 0, home, block).code == KAGUTIN_DONE, "read", at);
        check(kgt_read(&copy.store, 0, home, copied).code == KAGUTIN_DONE, "read of the copy", at);
        check(memcmp(block, homes.blocks + KAGUTIN_BLOCK_SIZE * home, sizeof block) == 0, "a home by the commit rule", at);
        check(memcmp(block, copied, sizeof block) == 0, "a home by the library", at);
    }
    homes_free(&homes);
    copy_close(&copy);
}

int main(int count, char **words)
{
    unsigned long at, cuts = count > 2 ? strtoul(words[2], NULL, 10) : 200;
    char path[512];

    snprintf(path, sizeof path, "%s/dump.bin", count > 1 ? words[1] : ".");
    memset(chip, 0xa5, sizeof chip);
    power_on(UINT64_MAX);
    check(kgt_format(&store, scratch, sizeof scratch).code == KAGUTIN_DONE, "format", 0);
    play_start(&play, &store, HOMES, 3);
    for (at = 0; at < cuts; at++) {
        power_on(play_random(&play, 20000));
        if (kgt_open(&store).code == KAGUTIN_DONE && play_opened(&play))
            play_work(&play, 400);
        check(!play.wrong, "work", at);
        dump(path);
        power_on(UINT64_MAX);
        check(kgt_open(&store).code == KAGUTIN_DONE && play_opened(&play), "an opening", at);
        second_copies += fram.newest;
        compare(path, at);
    }
    remove(path);
    check(second_copies > cuts / 4 && second_copies < cuts - cuts / 4, "either copy of the header counts at times",
          second_copies);
    printf("dump_check: right, %lu cuts\n", cuts);
    return 0;
}
