/* The store object settles in small steps: bounds, calls between the steps, a log that fills, power that goes inside a round. */
/* Clauses: [S-40, S-41, S-76] */
#include <stdio.h>
#include <stdlib.h>
#include <string.h>

#include "kagutin_memory.h"

enum { GROUPS = 5, HOMES = 8, PLACES = KAGUTIN_GROUP_ENTRIES * GROUPS };

static uint8_t memory[KGT_MEMORY_SIZE(GROUPS, HOMES)], scratch[KGT_FORMAT_SIZE(GROUPS, HOMES)];
static uint8_t lasting[KGT_LOG_SIZE(GROUPS) + KGT_HOMES_SIZE(HOMES)], written[sizeof lasting];
static struct kgt_memory medium;
static struct kgt_driver inner;
static struct kagutin store;
static unsigned long checks, home_writes, random_state = 1;

static void check(bool right, const char *what)
{
    checks++;
    if (right)
        return;
    printf("round_check: wrong: %s, at check %lu\n", what, checks);
    exit(1);
}

static void done(uint64_t code, const char *what)
{
    check(code == KAGUTIN_DONE, what);
}

static int counting_write(void *context, enum kgt_area area, size_t at, const uint8_t *bytes, size_t size)
{
    home_writes += area == KGT_HOMES;
    return inner.write(context, area, at, bytes, size);
}

/* An empty store, opened, whose home writes are counted. */
static void start(bool blocks)
{
    kgt_memory_init(&medium, lasting, written, GROUPS, HOMES);
    if (blocks)
        kgt_memory_keep_blocks(&medium);
    inner = kgt_memory_driver(&medium);
    done(kgt_init(&store, memory, sizeof memory, GROUPS, HOMES, inner).code, "init");
    store.runner.driver.write = counting_write;
    done(kgt_format(&store, scratch, sizeof scratch).code, "format");
    done(kgt_open(&store).code, "open");
}

/* A maintain that may write so many homes writes this many, and says whether there is more to do. */
static void maintain(uint64_t most, unsigned long homes, bool more)
{
    struct kgt_progress reply;

    home_writes = 0;
    reply = kgt_maintain(&store, most);
    done(reply.code, "maintain");
    check(home_writes == homes, "the homes that a maintain writes");
    check(reply.more == more, "whether there is more to do");
}

static void commit(uint64_t writer, uint64_t home, uint8_t byte)
{
    uint8_t block[KAGUTIN_BLOCK_SIZE] = {0};

    block[0] = byte;
    done(kgt_begin(&store, writer).code, "begin");
    done(kgt_store(&store, writer, home, block).code, "store");
    done(kgt_commit(&store, writer).code, "commit");
}

/* One commit of this many homes, fenced. */
static void commit_fenced(uint64_t writer, uint64_t count)
{
    uint8_t block[KAGUTIN_BLOCK_SIZE] = {0};
    uint64_t home;

    done(kgt_begin(&store, writer).code, "begin");
    for (home = 0; home < count; home++)
        done(kgt_store(&store, writer, home, block).code, "store");
    done(kgt_commit(&store, writer).code, "commit");
    done(kgt_sync(&store).code, "sync");
}

/* A home's first byte, as everybody reads it. */
static uint8_t byte_of(uint64_t home)
{
    uint8_t block[KAGUTIN_BLOCK_SIZE];

    done(kgt_read(&store, 7, home, block).code, "read");
    return block[0];
}

static void all_free(void)
{
    struct kagutin_places usage;

    done(kgt_usage(&store, &usage).code, "usage");
    check(usage.free == PLACES && usage.live == 0 && usage.dead == 0, "every place is free");
}

/* Never more homes than the bound, and only as many calls as they need. */
static void check_bounds(void)
{
    struct kagutin_places usage;

    start(false);
    maintain(2, 0, 0); /* nothing to settle */
    commit_fenced(0, HOMES);
    maintain(2, 2, 1);
    maintain(4, 4, 1);
    done(kgt_usage(&store, &usage).code, "usage");
    check(usage.live == HOMES, "nothing is trimmed inside a round");
    maintain(1, 1, 1);
    maintain(9, 1, 0);
    all_free();
    maintain(1, 0, 0);
    commit_fenced(1, 3);
    maintain(UINT64_MAX, 3, 0);
    commit_fenced(2, 3);
    maintain(1, 1, 1);
    maintain(0, 2 + 3, 0); /* no bound: the round is finished, then all is settled */
    all_free();
}

/* A log that writer 6 holds back is settled once, not again and again. */
static void check_held(void)
{
    uint8_t block[KAGUTIN_BLOCK_SIZE] = {0};

    start(false);
    done(kgt_begin(&store, 6).code, "begin");
    done(kgt_store(&store, 6, 7, block).code, "store");
    done(kgt_store(&store, 6, 6, block).code, "store");
    commit_fenced(0, 3);
    maintain(9, 3, 0);
    maintain(9, 0, 0);
    commit_fenced(1, 2);
    maintain(2, 2, 1); /* what is not trimmed is written again */
    maintain(2, 1, 0);
    maintain(2, 0, 0);
    done(kgt_abort(&store, 6).code, "abort");
    maintain(2, 0, 0); /* nothing to settle, but groups to free */
    all_free();
}

/* The round keeps to what was fenced when it began. */
static void check_between(void)
{
    uint64_t home;

    start(false);
    for (home = 0; home < 4; home++)
        commit(0, home, 1);
    done(kgt_sync(&store).code, "sync");
    maintain(1, 1, 1);
    commit(1, 0, 2);
    commit(1, 3, 2);
    commit(1, 7, 2);
    done(kgt_sync(&store).code, "sync");
    maintain(2, 2, 1);
    maintain(2, 1, 1); /* over; the three commits since are to be settled */
    check(lasting[KGT_LOG_SIZE(GROUPS) + KGT_HOMES_SIZE(3)] == 1, "the round does not write a later commit home");
    check(byte_of(0) == 2 && byte_of(1) == 1 && byte_of(3) == 2, "homes after a round");
    maintain(3, 3, 0);
    all_free();
    check(byte_of(0) == 2 && byte_of(1) == 1 && byte_of(7) == 2, "homes after the next round");
}

/* The log fills inside a round, and a reserve needs room: the object finishes the round, and nobody meets answer 21. */
static void check_full(void)
{
    uint64_t i;

    start(false);
    commit_fenced(0, HOMES);
    maintain(1, 1, 1);
    for (i = 0; i < 20 * PLACES; i++) {
        commit(i % 4, i % HOMES, (uint8_t)i);
        if (i % 19 == 0)
            check(kgt_maintain(&store, 1).code == KAGUTIN_DONE, "maintain");
        check(byte_of(i % HOMES) == (uint8_t)i, "a home");
    }
    commit_fenced(0, HOMES);
    maintain(1, 1, 1);
    done(kgt_reserve(&store, 5, PLACES - KAGUTIN_GROUP_ENTRIES).code, "a reserve that needs room");
    done(kgt_abort(&store, 5).code, "abort");
    done(kgt_sync(&store).code, "sync");
}

static bool by_chance(void *context, size_t at)
{
    (void)context;
    (void)at;
    random_state = random_state * 1103515245ul + 12345ul;
    return random_state >> 16 & 1;
}

/* Power goes after each step of a round: the opening ends the round, and what was confirmed is there. */
static void check_cut(bool blocks)
{
    uint64_t steps, home;

    for (steps = 0; steps < HOMES + 2; steps++) {
        start(blocks);
        for (home = 0; home < HOMES; home++)
            commit(0, home, 7);
        done(kgt_sync(&store).code, "sync");
        for (home = 0; home < steps; home++)
            check(kgt_maintain(&store, 1).code == KAGUTIN_DONE, "maintain");
        for (home = 0; home < HOMES; home++)
            commit(1, home, 9); /* may be lost */
        kgt_memory_cut(&medium, by_chance, NULL);
        done(kgt_open(&store).code, "open");
        for (home = 0; home < HOMES; home++)
            check(byte_of(home) == 7 || byte_of(home) == 9, "a home after a cut");
        maintain(1, 0, 0);
    }
}

int main(void)
{
    int round;

    check_bounds();
    check_held();
    check_between();
    check_full();
    for (round = 0; round < 50; round++)
        check_cut(round % 2);
    printf("round_check: right, %lu checks\n", checks);
    return 0;
}
