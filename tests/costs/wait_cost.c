/*
 * The longest waits: wait_cost CASE fills a log as the case says and then makes the one call, or the calls of a whole round,
 * inside counted(), whose instructions callgrind counts (tests/costs/wait-cost.sh). Without words it lists the cases, each with
 * its call, the positions of the log that this call goes over, and the most instructions it may take; 0 for no limit.
 */
#include <stdbool.h>
#include <stdio.h>
#include <stdlib.h>
#include <string.h>

#include "kagutin.h"

enum { MOST_GROUPS = KAGUTIN_MAX_GROUPS, MOST_HOMES = 65535, PLACES = 7, OWNER = 1, OTHER = 0, TWO_HOMES = 20, SMALL_STEP = 8 };

/* Steps are of 8 homes, of one, or of all. */
enum call { SETTLE, STEP, STEP_ONE, STEP_ALL, ROUND, READ, COMMIT, TRIM };

/* How the log is filled: commits of four blocks; commits of four blocks by eight writers in turn; two logs only damage makes, one
   where each entry closes a transaction that began at the first, one where the last entry alone comes after its transaction's
   closing one; one entry of an open transaction and then another writer's, for all homes or two; the open transaction's own, for
   all homes or two; one commit. */
enum fill { COMMITS, EIGHT, SHARED, STRAY, OTHERS, OTHERS_TWO, OWN, OWN_TWO, ONE };

static const struct wait {
    const char *name;
    enum call call;
    enum fill fill;
    size_t groups, homes;
    unsigned long most;
} waits[] = {
    {"settle-64-64", SETTLE, EIGHT, 64, 64, 49900},
    {"step-64-64", STEP, EIGHT, 64, 64, 48700},
    {"step-one-64-64", STEP_ONE, EIGHT, 64, 64, 48300},
    {"step-all-64-64", STEP_ALL, EIGHT, 64, 64, 50200},
    {"round-64-64", ROUND, EIGHT, 64, 64, 194000},
    {"settle-64-1024", SETTLE, EIGHT, 64, 1024, 84300},
    {"step-64-1024", STEP, EIGHT, 64, 1024, 31900},
    {"step-one-64-1024", STEP_ONE, EIGHT, 64, 1024, 31400},
    {"step-all-64-1024", STEP_ALL, EIGHT, 64, 1024, 85000},
    {"settle-1024-64", SETTLE, EIGHT, 1024, 64, 776000},
    {"step-1024-64", STEP, EIGHT, 1024, 64, 775000},
    {"step-all-1024-64", STEP_ALL, EIGHT, 1024, 64, 776000},
    {"round-1024-64", ROUND, EIGHT, 1024, 64, 3100000},
    {"settle-1024-4096", SETTLE, EIGHT, 1024, 4096, 1100000},
    {"step-1024-4096", STEP, EIGHT, 1024, 4096, 499000},
    {"step-one-1024-4096", STEP_ONE, EIGHT, 1024, 4096, 499000},
    {"step-all-1024-4096", STEP_ALL, EIGHT, 1024, 4096, 1110000},
    {"round-1024-4096", ROUND, EIGHT, 1024, 4096, 255000000},
    {"settle-1024-65535", SETTLE, EIGHT, 1024, 65535, 1450000},
    {"step-1024-65535", STEP, EIGHT, 1024, 65535, 498000},
    {"step-one-1024-65535", STEP_ONE, EIGHT, 1024, 65535, 496000},
    {"step-all-1024-65535", STEP_ALL, EIGHT, 1024, 65535, 1490000},
    {"settle-shared-64", SETTLE, SHARED, 1024, 64, 1270000},
    {"step-shared-64", STEP, SHARED, 1024, 64, 1270000},
    {"step-all-shared-64", STEP_ALL, SHARED, 1024, 64, 1270000},
    {"settle-shared-4096", SETTLE, SHARED, 1024, 4096, 1590000},
    {"step-shared-4096", STEP, SHARED, 1024, 4096, 986000},
    {"step-all-shared-4096", STEP_ALL, SHARED, 1024, 4096, 1590000},
    {"settle-stray-64", SETTLE, STRAY, 1024, 64, 1550000},
    {"step-stray-64", STEP, STRAY, 1024, 64, 1550000},
    {"step-all-stray-64", STEP_ALL, STRAY, 1024, 64, 1550000},
    {"settle-stray-4096", SETTLE, STRAY, 1024, 4096, 1880000},
    {"step-stray-4096", STEP, STRAY, 1024, 4096, 1280000},
    {"step-all-stray-4096", STEP_ALL, STRAY, 1024, 4096, 1880000},
    {"settle-few", SETTLE, ONE, 1024, 65535, 36300},
    {"step-few", STEP_ALL, ONE, 1024, 65535, 50200},
    {"read-others", READ, OTHERS, 1024, 4096, 71680},
    {"read-others-home", READ, OTHERS_TWO, 1024, 4096, 71680},
    {"read-own", READ, OWN, 1024, 4096, 71680},
    {"read-own-home", READ, OWN_TWO, 1024, 4096, 1000},
    {"commit-others", COMMIT, OTHERS, 1024, 4096, 57344},
    {"commit-own", COMMIT, OWN, 1024, 4096, 143360},
    {"commit-own-65535", COMMIT, OWN, 1024, 65535, 222000},
    {"trim-few", TRIM, ONE, 1024, 65535, 196605},
    {"trim-all", TRIM, COMMITS, 1024, 65535, 196605},
};

static uint8_t log_area[KAGUTIN_HEADER_SIZE + KAGUTIN_GROUP_SIZE * MOST_GROUPS], area[KAGUTIN_BLOCK_SIZE * MOST_HOMES];
static uint8_t state[KAGUTIN_STATE_SIZE], newest[KAGUTIN_POSITION_SIZE * MOST_HOMES], block[KAGUTIN_BLOCK_SIZE];
static uint8_t batch[KAGUTIN_GW_SIZE * MOST_GROUPS + KAGUTIN_HW_SIZE * MOST_HOMES + 1024];
static size_t groups, homes;

#define AREAS log_area, KAGUTIN_HEADER_SIZE + KAGUTIN_GROUP_SIZE *groups, area, KAGUTIN_BLOCK_SIZE *homes
#define STATE state, sizeof state
#define NEWEST newest, KAGUTIN_POSITION_SIZE *homes
#define BATCH batch, sizeof batch

static void done(struct kagutin_reply reply)
{
    if (reply.code == KAGUTIN_DONE)
        return;
    printf("wait_cost: answer %lu\n", (unsigned long)reply.code);
    exit(1);
}

/* A home other than those before it, from 32 on where there are so many. */
static uint64_t next_home(void)
{
    static uint64_t at;

    at += 29;
    return 32 + at % (homes - 33);
}

static bool store_one(uint64_t writer, uint64_t home)
{
    return kagutin_store(AREAS, STATE, block, sizeof block, BATCH, writer, home).code == KAGUTIN_DONE;
}

/* One transaction of four blocks of each of so many writers, in turn; false once the log is full. */
static bool four_each(uint64_t writers)
{
    uint64_t writer;
    int i;

    for (writer = 0; writer < writers; writer++)
        done(kagutin_begin(AREAS, STATE, writer));
    for (i = 0; i < 4; i++)
        for (writer = 0; writer < writers; writer++)
            if (!store_one(writer, next_home()))
                return false;
    for (writer = 0; writer < writers; writer++)
        if (kagutin_commit(AREAS, STATE, NEWEST, BATCH, writer).code != KAGUTIN_DONE)
            return false;
    return true;
}

static void fill_committed(uint64_t writers)
{
    uint64_t writer;

    while (four_each(writers))
        continue;
    for (writer = 0; writer < writers; writer++)
        kagutin_abort(AREAS, STATE, writer);
}

/* The owner's open transaction from the log's first position on, then the other writer's or its own to the log's end but one. */
static void fill_open(enum fill fill)
{
    unsigned long i, places = PLACES * (unsigned long)groups - 2;
    uint64_t writer = fill == OTHERS || fill == OTHERS_TWO ? OTHER : OWNER;
    bool two = fill == OTHERS_TWO || fill == OWN_TWO;

    done(kagutin_begin(AREAS, STATE, OWNER));
    store_one(OWNER, 32);
    store_one(OWNER, 33);
    if (writer == OTHER)
        done(kagutin_begin(AREAS, STATE, OTHER));
    for (i = 0; i < places; i++)
        if (!store_one(writer, two ? TWO_HOMES + i % 2 : next_home()))
            break;
}

/* Fences what is logged. */
static void fence(void)
{
    done(kagutin_flush(AREAS, STATE, BATCH));
    done(kagutin_confirm(AREAS, STATE));
}

static void put_number(uint8_t *to, uint64_t value)
{
    int i;

    for (i = 0; i < 8; i++)
        to[i] = (uint8_t)(value >> 8 * i);
}

/* Every entry closes a transaction that began at the first position: it links to the one before and counts all up to it. */
static void share_first(void)
{
    uint64_t offset, home;

    for (offset = 0; offset < PLACES * groups; offset++) {
        home = next_home();
        put_number(log_area + KAGUTIN_HEADER_SIZE + KAGUTIN_GROUP_SIZE * (offset / PLACES) + 8 + 8 * (offset % PLACES),
                   3 | (home & 0xfff) << 2 | offset << 14 | (uint64_t)(offset > 0) << 27 | (offset + 1) << 40 | home >> 12 << 53);
    }
}

/* The last entry once more of the first one's transaction, which is closed. */
static void stray_last(void)
{
    uint64_t offset = PLACES * groups - 1;

    put_number(log_area + KAGUTIN_HEADER_SIZE + KAGUTIN_GROUP_SIZE * (offset / PLACES) + 8 + 8 * (offset % PLACES),
               1 | UINT64_C(1) << 2 | offset << 14);
}

/* Whether the call is a step or a round. */
static bool steps(enum call call)
{
    return call >= STEP && call <= ROUND;
}

/* Fills the log and makes what comes before the call that counts. */
static void prepare(const struct wait *wait)
{
    if (wait->call == READ || wait->call == COMMIT) {
        fill_open(wait->fill);
        return;
    }
    if (wait->fill == ONE)
        four_each(1);
    else
        fill_committed(wait->fill == COMMITS ? 1 : KAGUTIN_WRITERS);
    fence();
    if (wait->fill == SHARED)
        share_first();
    if (wait->fill == STRAY)
        stray_last();
    if (steps(wait->call))
        done(kagutin_begin_round(AREAS, STATE));
    if (wait->call == TRIM) {
        done(kagutin_settle(AREAS, STATE, BATCH));
        done(kagutin_confirm(AREAS, STATE));
    }
}

static struct kagutin_reply step(uint64_t most)
{
    return kagutin_step_round(AREAS, STATE, BATCH, most);
}

/* All steps of a round. */
static struct kagutin_reply all_steps(void)
{
    struct kagutin_reply reply;

    do
        reply = step(SMALL_STEP);
    while (reply.code == KAGUTIN_DONE && reply.size % KAGUTIN_HW_SIZE == 0);
    return reply;
}

/* The call whose instructions count. */
struct kagutin_reply counted(enum call call);
struct kagutin_reply counted(enum call call)
{
    switch (call) {
    case SETTLE: return kagutin_settle(AREAS, STATE, BATCH);
    case STEP: return step(SMALL_STEP);
    case STEP_ONE: return step(1);
    case STEP_ALL: return step(UINT64_MAX);
    case ROUND: return all_steps();
    case READ: return kagutin_read(AREAS, STATE, NEWEST, block, sizeof block, OWNER, TWO_HOMES);
    case COMMIT: return kagutin_commit(AREAS, STATE, NEWEST, BATCH, OWNER);
    default: return kagutin_trim(AREAS, STATE, NEWEST, BATCH);
    }
}

static int run(const struct wait *wait)
{
    groups = wait->groups;
    homes = wait->homes;
    done(kagutin_format(AREAS, BATCH));
    done(kagutin_open(AREAS, STATE, NEWEST, BATCH));
    prepare(wait);
    done(counted(wait->call));
    return 0;
}

int main(int count, char **words)
{
    static const char *const calls[] = {"settle",     "step_round", "step_round", "step_round",
                                        "step_round", "read",       "commit",     "trim"};
    size_t i;

    for (i = 0; i < sizeof waits / sizeof waits[0]; i++) {
        if (count < 2)
            printf("%s %s %lu %lu\n", waits[i].name, calls[waits[i].call], PLACES * (unsigned long)waits[i].groups,
                   waits[i].most);
        else if (strcmp(words[1], waits[i].name) == 0)
            return run(&waits[i]);
    }
    return count >= 2;
}
