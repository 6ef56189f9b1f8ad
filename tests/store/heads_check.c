/*
 * Many groups between two fences on a medium that keeps words: the first words
 * of all of them wait for the sync. Power goes after every few bytes, and of the
 * words since the last fence none, all or any arrive; what comes back is a prefix
 * of the commits, whole, and all of them once a sync is done. Before that none
 * of the first words is written, so without a sync nothing comes back. And words
 * that wait when the driver fails are forgotten by the next opening or format.
 */
/* Clauses: [S-54, S-55, S-57, S-82] */
#include <stdio.h>
#include <stdlib.h>
#include <string.h>

#include "kagutin_memory.h"

enum { GROUPS = 48, HOMES = 8, COMMITS = 37, BLOCKS = KAGUTIN_GROUP_ENTRIES };

static uint8_t memory[KGT_MEMORY_SIZE(GROUPS, HOMES)], scratch[KGT_FORMAT_SIZE(GROUPS, HOMES)];
static uint8_t lasting[KGT_LOG_SIZE(GROUPS) + KGT_HOMES_SIZE(HOMES)], written[sizeof lasting], formatted[sizeof lasting];
static struct kgt_memory medium;
static struct kagutin store;
static uint64_t chance = 1;

static void check(bool right, const char *what, unsigned long at)
{
    if (right)
        return;
    printf("heads_check: wrong: %s, at %lu\n", what, at);
    exit(1);
}

static struct kgt_driver inner;
static unsigned long calls; /* writes and fences so far */

static int counted_write(void *context, enum kgt_area area, size_t at, const uint8_t *bytes, size_t size)
{
    calls++;
    return inner.write(context, area, at, bytes, size);
}

static int counted_fence(void *context)
{
    calls++;
    return inner.fence(context);
}

static void power_on(void)
{
    struct kgt_driver driver;

    kgt_memory_init(&medium, lasting, written, GROUPS, HOMES);
    driver = inner = kgt_memory_driver(&medium);
    driver.write = counted_write;
    driver.fence = counted_fence;
    check(kgt_init(&store, memory, sizeof memory, GROUPS, HOMES, driver).code == KAGUTIN_DONE, "init", 0);
}

/* Each commit fills one group; how many were committed, and whether the sync behind them was done. */
static unsigned long work(bool *synced)
{
    uint8_t block[KAGUTIN_BLOCK_SIZE];
    unsigned long done;
    uint64_t home;

    for (done = 0; done < COMMITS; done++) {
        memset(block, (int)done + 1, sizeof block);
        if (kgt_begin(&store, 0).code != KAGUTIN_DONE)
            break;
        for (home = 0; home < BLOCKS; home++)
            if (kgt_store(&store, 0, home, block).code != KAGUTIN_DONE)
                return done;
        if (kgt_commit(&store, 0).code != KAGUTIN_DONE)
            break;
    }
    *synced = done == COMMITS && kgt_sync(&store).code == KAGUTIN_DONE;
    return done;
}

static bool by_chance(void *context, size_t at)
{
    (void)context;
    (void)at;
    chance = chance * 6364136223846793005u + 1442695040888963407u;
    return chance >> 59 != 0; /* one of 32 is lost: most groups come close to whole */
}

static bool none(void *context, size_t at)
{
    (void)context;
    (void)at;
    return false;
}

/* After a cut: all homes are of one commit, of the last if it was synced, and of none if the power went before the sync. */
static void look(unsigned long at, unsigned long committed, bool synced)
{
    uint8_t block[KAGUTIN_BLOCK_SIZE], whole[KAGUTIN_BLOCK_SIZE], first = 0;
    uint64_t home;

    check(kgt_open(&store).code == KAGUTIN_DONE, "an opening", at);
    for (home = 0; home < BLOCKS; home++) {
        check(kgt_read(&store, 1, home, block).code == KAGUTIN_DONE, "a read", at);
        if (home == 0)
            first = block[0];
        memset(whole, first, sizeof whole);
        check(memcmp(block, whole, sizeof block) == 0, "homes of one commit", at);
    }
    check(first <= (committed == COMMITS ? COMMITS : 0) && (!synced || first == COMMITS), "which commits are back", at);
}

static void check_cuts(bool (*lands)(void *context, size_t at), unsigned every, const char *what)
{
    unsigned long at, committed, cuts = 0;
    bool synced = false;

    for (at = 0; !synced; at += every, cuts++) {
        memcpy(lasting, formatted, sizeof lasting);
        power_on();
        check(kgt_open(&store).code == KAGUTIN_DONE, "the first opening", at);
        kgt_memory_stop_after(&medium, at);
        committed = work(&synced);
        kgt_memory_cut(&medium, lands, NULL);
        kgt_memory_stop_after(&medium, UINT64_MAX);
        look(at, committed, synced);
    }
    printf("heads_check: %lu cuts, %s of the words since the last fence\n", cuts, what);
}

/* Driver calls of an opening, or of a format. */
static unsigned long calls_of(bool opens)
{
    unsigned long before = calls;

    check((opens ? kgt_open(&store).code : kgt_format(&store, scratch, sizeof scratch).code) == KAGUTIN_DONE, "anew", opens);
    return calls - before;
}

/* The driver fails while first words wait. Of these the next opening or format knows nothing: it makes the calls of one that a start makes. */
static void check_failures(bool opens)
{
    static uint8_t left[sizeof lasting];
    unsigned long again;
    bool synced;

    memcpy(lasting, formatted, sizeof lasting);
    power_on();
    check(kgt_open(&store).code == KAGUTIN_DONE, "an opening", 0);
    check(work(&synced) == COMMITS && synced, "a sync", 0);
    check(kgt_maintain(&store, 0).code == KAGUTIN_DONE, "room", 0);
    kgt_memory_stop_after(&medium, (uint64_t)(COMMITS / 2) * KAGUTIN_GROUP_SIZE);
    check(work(&synced) < COMMITS && kgt_sync(&store).code == KGT_DRIVER_FAILED, "a failure", 0);
    kgt_memory_cut(&medium, by_chance, NULL);
    memcpy(left, lasting, sizeof left);
    again = calls_of(opens);
    memcpy(lasting, left, sizeof lasting);
    power_on();
    check(calls_of(opens) == again, "calls after a failure", again);
    printf("heads_check: %lu driver calls of %s after a failure, as after a start\n", again, opens ? "an opening" : "a format");
}

int main(void)
{
    power_on();
    check(kgt_format(&store, scratch, sizeof scratch).code == KAGUTIN_DONE, "a format", 0);
    memcpy(formatted, lasting, sizeof formatted);
    check_cuts(none, 41, "none");
    check_cuts(NULL, 43, "all");
    check_cuts(by_chance, 5, "any");
    check_failures(true);
    check_failures(false);
    return 0;
}
