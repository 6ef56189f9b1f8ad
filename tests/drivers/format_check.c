/*
 * A format over an image with a log of its own, whose header is whole or
 * damaged, cut at every call of the driver. Of what was written since the last
 * fence any words (or blocks) land, in every choice where they are few: where
 * no store could be opened before, none comes back. Argument: every so many
 * kinds of damage (1: all).
 */
/* Clauses: [S-22, S-23, S-27] */
#include <stdio.h>
#include <stdlib.h>
#include <string.h>

#include "kagutin_memory.h"
#include "../common/play.h"

enum { GROUPS = 4, HOMES = 6, WORD = 8, HEADER_WORDS = KAGUTIN_HEADER_SIZE / WORD };
enum { ENUMERATED = 10, SOME_CHOICES = 60 }; /* so many units are tried in every choice, more of them in some */

static uint8_t memory[KGT_MEMORY_SIZE(GROUPS, HOMES)], scratch[KGT_FORMAT_SIZE(GROUPS, HOMES)];
static uint8_t lasting[KGT_LOG_SIZE(GROUPS) + KGT_HOMES_SIZE(HOMES)], written[sizeof lasting], used[sizeof lasting];
static uint8_t damaged[sizeof lasting], stopped[2][sizeof lasting];
static struct kgt_memory medium, stopped_medium;
static struct kagutin store;
static struct play play, used_play;
static bool blocks; /* the medium keeps blocks whole, not only words */

static void check(bool right, const char *what, unsigned long at)
{
    if (right)
        return;
    printf("format_check: wrong: %s, at %lu, %s kept whole%s%s\n", what, at, blocks ? "blocks" : "words", play.wrong ? ": " : "",
           play.wrong ? play.wrong : "");
    exit(1);
}

static void power_on(const uint8_t *image)
{
    memcpy(lasting, image, sizeof lasting);
    kgt_memory_init(&medium, lasting, written, GROUPS, HOMES);
    if (blocks)
        kgt_memory_keep_blocks(&medium);
    check(kgt_init(&store, memory, sizeof memory, GROUPS, HOMES, kgt_memory_driver(&medium)).code == 0, "init", 0);
}

/* An image whose last commits are in its log alone. */
static void use_image(void)
{
    power_on(lasting);
    check(kgt_format(&store, scratch, sizeof scratch).code == KAGUTIN_DONE, "format", 0);
    check(kgt_open(&store).code == KAGUTIN_DONE, "open", 0);
    play_start(&play, &store, HOMES, 6);
    while (play.confirmed < 20)
        check(play_work(&play, 1), "work", 0);
    memcpy(used, lasting, sizeof used);
    used_play = play;
}

/* ---- what an opening finds ---- */

static bool is_empty(void)
{
    static const uint8_t zeros[KAGUTIN_BLOCK_SIZE];
    uint8_t block[KAGUTIN_BLOCK_SIZE];
    uint64_t home;

    for (home = 0; home < HOMES; home++)
        if (kgt_read(&store, 0, home, block).code != KAGUTIN_DONE || memcmp(block, zeros, sizeof block) != 0)
            return false;
    return true;
}

enum outcome { OLD, NONE, EMPTY };

static enum outcome open_image(unsigned long at)
{
    uint64_t code = kgt_open(&store).code;

    if (code == KAGUTIN_BAD_HEADER)
        return NONE;
    check(code == KAGUTIN_DONE, "an opening after a format that was cut", at);
    if (is_empty())
        return EMPTY;
    play = used_play;
    check(play_opened(&play), "the old store after a format that was cut", at);
    return OLD;
}

/* ---- the driver stops ---- */

static struct kgt_driver inner;
static unsigned long calls_left;

/* The last write may land, too. */
static int stopping_write(void *context, enum kgt_area area, size_t at, const uint8_t *bytes, size_t size)
{
    int error = inner.write(context, area, at, bytes, size);

    return error || calls_left-- == 0;
}

static int stopping_fence(void *context)
{
    return calls_left-- == 0 || inner.fence(context);
}

/* The driver fails after so many more calls. */
static void stop_at(unsigned long calls)
{
    calls_left = calls;
    inner = store.runner.driver;
    store.runner.driver.write = stopping_write;
    store.runner.driver.fence = stopping_fence;
}

/* ---- choices ---- */

/* Units that a cut can leave as they were, counted as the cut asks for them. */
struct choice {
    uint64_t units; /* one bit each: it lands */
    unsigned asked;
    bool by_chance;
};

static bool lands(void *context, size_t at)
{
    struct choice *choice = (struct choice *)context;

    (void)at;
    if (choice->by_chance)
        return play_random(&play, 2) == 0;
    return choice->units >> choice->asked++ & 1;
}

static unsigned count_open_units(void)
{
    size_t unit = blocks ? KAGUTIN_BLOCK_SIZE : WORD, at;
    unsigned count = 0;

    for (at = 0; at < sizeof lasting; at += unit)
        count += memcmp(lasting + at, written + at, unit) != 0;
    return count;
}

/* Cuts power where the format has stopped, in every choice or in some, and opens what is left. */
static void try_choices(bool was_store, unsigned long at, unsigned long found[3])
{
    unsigned units = count_open_units();
    uint64_t tries = units <= ENUMERATED ? (uint64_t)1 << units : SOME_CHOICES, i;

    memcpy(stopped[0], lasting, sizeof lasting);
    memcpy(stopped[1], written, sizeof written);
    stopped_medium = medium;
    for (i = 0; i < tries; i++) {
        struct choice choice = {0, 0, false};
        enum outcome outcome;

        choice.units = i;
        choice.by_chance = units > ENUMERATED;
        memcpy(lasting, stopped[0], sizeof lasting);
        memcpy(written, stopped[1], sizeof written);
        medium = stopped_medium;
        calls_left = UINT32_MAX;
        kgt_memory_cut(&medium, lands, &choice);
        outcome = open_image(at);
        check(was_store || outcome != OLD, "a store is opened that was not to be opened before", at);
        found[outcome]++;
    }
}

/* ---- damage ---- */

/* Damages the header in some of its words, so that it is none: the mark, the shape, or zeros that are not. */
static void damage_header(unsigned words)
{
    unsigned i;

    memcpy(damaged, used, sizeof damaged);
    for (i = 0; i < HEADER_WORDS; i++)
        if (words >> i & 1)
            damaged[WORD * i + (i < 2 ? 0 : i)] ^= 0x21;
    power_on(damaged);
    check((kgt_open(&store).code == KAGUTIN_BAD_HEADER) == (words != 0), "a damaged header is none", words);
}

/* A format of the used image with such a header, stopped at every call of the driver. */
static void check_damage(unsigned words, unsigned long found[3])
{
    unsigned long at;
    bool ended = false;

    damage_header(words);
    for (at = 0; !ended; at++) {
        power_on(damaged);
        stop_at(at);
        ended = kgt_format(&store, scratch, sizeof scratch).code == KAGUTIN_DONE;
        try_choices(words == 0, words, found);
    }
    check(is_empty(), "a format that ended", words);
}

static void check_formats(unsigned every)
{
    unsigned long found[3] = {0, 0, 0};
    unsigned words;

    use_image();
    for (words = 0; words < 1u << HEADER_WORDS; words += every)
        check_damage(words, found);
    check(found[OLD] > 0 && found[NONE] > 0 && found[EMPTY] > 0, "some cut before, inside and after a format", 0);
    printf("format_check: %s kept whole: %lu cuts left the old store, %lu none, %lu an empty one\n", blocks ? "blocks" : "words",
           found[OLD], found[NONE], found[EMPTY]);
}

int main(int count, char **words)
{
    unsigned every = count > 1 ? (unsigned)atoi(words[1]) : 1;

    check_formats(every ? every : 1);
    blocks = true;
    check_formats(every ? every : 1);
    puts("format_check: right");
    return 0;
}
