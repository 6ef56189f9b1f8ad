/*
 * A store on a simulated serial FRAM that loses power, or its bus, after every
 * single byte that it takes, at work and inside a format of a chip that was
 * used. Argument: every so many bytes (1: all).
 */
/* Clauses: [S-57, S-77, S-83] */
#include <stdio.h>
#include <stdlib.h>
#include <string.h>

#include "../common/play.h"
#include "kagutin_fram.h"

enum { GROUPS = 4, HOMES = 7, STEPS = 200, BASE = 300, CHIP = 8192 };

static uint8_t memory[KGT_MEMORY_SIZE(GROUPS, HOMES)], scratch[KGT_FORMAT_SIZE(GROUPS, HOMES)];
static struct kagutin store;
static struct kgt_fram fram;
static struct play play, used_play;

static struct {
    uint8_t bytes[CHIP], formatted[CHIP], used[CHIP];
    bool enabled, off;
    uint64_t left; /* bytes until power fails */
} chip;

static void check(bool right, const char *what, unsigned long at)
{
    if (right)
        return;
    printf("fram_check: wrong: %s, at %lu: %s\n", what, at, play.wrong ? play.wrong : "");
    exit(1);
}

/* The chip: one byte after the other, only after a write enable. */
static int transfer(void *bus, const uint8_t *command, size_t command_size, const uint8_t *out, uint8_t *in, size_t size)
{
    size_t at = 0, i;

    check(bus == &chip && (out == NULL || in == NULL), "a transfer", 0);
    if (chip.off)
        return 5;
    if (command_size == 1) {
        chip.enabled = command[0] == 0x06;
        return 0;
    }
    check(command_size == 3 || command_size == 4, "a command with an address", command_size);
    for (i = 1; i < command_size; i++)
        at = at << 8 | command[i];
    check(at >= BASE && at + size <= CHIP, "an address inside the image", at);
    for (i = 0; i < size && command[0] == 0x03; i++)
        in[i] = chip.bytes[at + i];
    for (i = 0; i < size && command[0] == 0x02 && chip.enabled; i++) {
        if (chip.left == 0) {
            chip.off = true;
            return 5;
        }
        chip.left--;
        chip.bytes[at + i] = out[i];
    }
    chip.enabled = false;
    return 0;
}

/* The bus works again, for so many bytes. */
static void bus_on(uint64_t left)
{
    chip.off = false;
    chip.enabled = false;
    chip.left = left;
}

static void power_on(uint64_t left)
{
    bus_on(left);
    kgt_fram_init(&fram, GROUPS, BASE, left % 2 ? 2 : 3, transfer, &chip);
    check(kgt_init(&store, memory, sizeof memory, GROUPS, HOMES, kgt_fram_driver(&fram)).code == 0, "init", 0);
}

/* Opens after a cut, or after a failure of the bus with driver and store as they are; that may come again. */
static void reopen(unsigned long at)
{
    int cuts;

    for (cuts = 0; cuts < 4; cuts++) {
        uint64_t left = cuts < 3 && play_random(&play, 2) ? play_random(&play, 3500) : UINT64_MAX;

        if (play_random(&play, 2))
            power_on(left);
        else
            bus_on(left);
        if (kgt_open(&store).code == KAGUTIN_DONE)
            break;
        check(chip.off, "an opening that is not done though power is on", at);
    }
    chip.left = UINT64_MAX;
    check(play_opened(&play), "an opening", at);
}

/* Power goes after every n-th byte of a history; then the store is used on. */
static void check_stops(unsigned long every)
{
    unsigned long at;
    bool ended = false;

    for (at = 0; !ended; at += every) {
        memcpy(chip.bytes, chip.formatted, CHIP);
        power_on(at);
        play_start(&play, &store, HOMES, 2);
        ended = kgt_open(&store).code == KAGUTIN_DONE && play_work(&play, STEPS);
        check(!play.wrong, "work", at);
        reopen(at);
        check(play_work(&play, 30), "work after an opening", at);
        reopen(at);
    }
    printf("fram_check: %lu bytes, stopped every %lu\n", at, every);
}

/* ---- a cut inside a format ---- */

/* Uses the chip until this copy of the header is the newer one, ending with a commit that is synced. */
static void use_chip(unsigned newest)
{
    uint64_t confirmed;

    memcpy(chip.bytes, chip.formatted, CHIP);
    power_on(UINT64_MAX);
    play_start(&play, &store, HOMES, 4);
    do {
        check(kgt_open(&store).code == KAGUTIN_DONE && play_opened(&play), "an opening of the chip to be formatted", newest);
        confirmed = play.confirmed;
        while (play.confirmed < confirmed + 5)
            check(play_work(&play, 1), "work on the chip to be formatted", newest);
    } while (fram.newest != newest);
    memcpy(chip.used, chip.bytes, CHIP);
    used_play = play;
}

/* Formats until power goes after so many bytes. The driver knows the header's copies only if it has loaded them. */
static bool format(uint64_t bytes, bool loaded)
{
    struct kgt_driver driver = kgt_fram_driver(&fram);
    static uint8_t log[KGT_LOG_SIZE(GROUPS)];

    power_on(bytes);
    check(!loaded || driver.load(&fram, KGT_LOG, 0, log, sizeof log) == 0, "load", (unsigned long)bytes);
    return kgt_format(&store, scratch, sizeof scratch).code == KAGUTIN_DONE;
}

static bool is_empty(void)
{
    static const uint8_t zeros[KAGUTIN_BLOCK_SIZE];
    uint8_t block[KAGUTIN_BLOCK_SIZE];
    uint64_t home;

    for (home = 0; home < HOMES; home++)
        if (kgt_read(&store, 0, home, block).code != KAGUTIN_DONE || memcmp(block, zeros, sizeof block) != 0)
            return false;
    return true;
}

enum outcome { OLD, NONE, EMPTY };

/* What an opening finds: the old store with all that was synced, no store, or an empty one. */
static enum outcome open_formatted(unsigned long at)
{
    uint64_t code;

    power_on(UINT64_MAX);
    code = kgt_open(&store).code;
    if (code == KAGUTIN_BAD_HEADER)
        return NONE;
    check(code == KAGUTIN_DONE, "an opening after a format that was cut", at);
    if (is_empty())
        return EMPTY;
    play = used_play;
    check(play_opened(&play) && play_work(&play, 30), "the old store after a format that was cut", at);
    reopen(at);
    return OLD;
}

/* A format cut after every n-th byte, and the same with another one cut after it. */
static void check_formats(unsigned newest, bool loaded, unsigned long every)
{
    unsigned long found[3] = {0, 0, 0}, at;
    bool ended = false;

    use_chip(newest);
    for (at = 0; !ended; at += every) {
        memcpy(chip.bytes, chip.used, CHIP);
        ended = format(at, loaded);
        found[open_formatted(at)]++;
        memcpy(chip.bytes, chip.used, CHIP);
        if (!format(at, loaded))
            format(7 * at % 100, !loaded);
        open_formatted(at);
    }
    check(found[OLD] > 0 && found[NONE] > 0 && found[EMPTY] > 0, "some cut before, inside and after a format", at);
    printf("fram_check: format cut every %lu bytes, copy %u the newer%s: %lu old, %lu none, %lu empty\n", every, newest,
           loaded ? " and loaded" : "", found[OLD], found[NONE], found[EMPTY]);
}

int main(int count, char **words)
{
    unsigned long every = count > 1 ? strtoul(words[1], NULL, 10) : 1;
    unsigned newest;

    every = every ? every : 1;
    power_on(UINT64_MAX);
    check(kgt_open(&store).code == KAGUTIN_BAD_HEADER, "an empty chip", 0);
    check(kgt_format(&store, scratch, sizeof scratch).code == KAGUTIN_DONE, "format", 0);
    memcpy(chip.formatted, chip.bytes, CHIP);
    check_stops(every);
    for (newest = 0; newest < 2; newest++) {
        check_formats(newest, false, every);
        check_formats(newest, true, every);
    }
    puts("fram_check: right");
    return 0;
}
