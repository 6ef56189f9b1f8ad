/*
 * What questions 19 and 20 cost: rights_cost CASE CALL makes the case at G 1,024 and then the one call, store or read by
 * writer 1, inside counted(), whose instructions callgrind counts (tests/costs/rights-cost.sh). Without words it lists the cases.
 */
#include <stdbool.h>
#include <stdio.h>
#include <stdlib.h>
#include <string.h>

#include "kagutin.h"

enum { GROUPS = KAGUTIN_MAX_GROUPS, MOST_HOMES = 64, LIST = 8, LIST_HOMES = 4, WRITER = 1, OPEN_HOME = 20, CLOSED_HOME = 40 };

/* Where the list's blocks lie: none is committed, in the data copy, next to each other in the log, each in a group and a transaction of its own. */
enum where { NOWHERE, COPY, NEXT, APART };

struct shape {
    const char *name;
    size_t homes;
    enum where where;
    int range;        /* which of the writer's four ranges opens the home; -1: none does */
    unsigned other;   /* a writer whose range makes the list one; 8: none does */
    unsigned before;  /* entries before the list's */
    uint64_t code[2]; /* answers of store and read */
};

static const struct shape shapes[] = {
    {"small", 8, NOWHERE, -1, 8, 0, {0, 0}},
    {"none", 64, NOWHERE, -1, 8, 0, {0, 0}},
    {"copy", 64, COPY, 0, 8, 0, {0, 0}},
    {"copy-refused", 64, COPY, -1, 7, 0, {KAGUTIN_STORE_DENIED, KAGUTIN_READ_DENIED}},
    {"log", 64, NEXT, 0, 8, 0, {0, 0}},
    {"log-last-range", 64, NEXT, 3, 8, 0, {0, 0}},
    {"log-apart", 64, APART, 0, 8, 0, {0, 0}},
    {"log-apart-last", 64, APART, 3, 8, 0, {0, 0}},
    {"log-refused", 64, NEXT, -1, 0, 0, {KAGUTIN_STORE_DENIED, KAGUTIN_READ_DENIED}},
    {"log-refused-late", 64, NEXT, -1, 7, 0, {KAGUTIN_STORE_DENIED, KAGUTIN_READ_DENIED}},
    {"zeros", 64, NEXT, -1, 8, 0, {0, 0}},
    {"zeros-two-groups", 64, NEXT, -1, 8, 5, {0, 0}},
    {"zeros-apart", 64, APART, -1, 8, 0, {0, 0}},
};

static uint8_t log_area[KAGUTIN_HEADER_SIZE + KAGUTIN_GROUP_SIZE * GROUPS], area[KAGUTIN_BLOCK_SIZE * MOST_HOMES];
static uint8_t state[KAGUTIN_STATE_SIZE], newest[KAGUTIN_POSITION_SIZE * MOST_HOMES], block[KAGUTIN_BLOCK_SIZE];
static uint8_t batch[KAGUTIN_GW_SIZE * GROUPS + KAGUTIN_HW_SIZE * MOST_HOMES + 1024], list[KAGUTIN_BLOCK_SIZE * LIST_HOMES];
static size_t homes;

#define AREAS log_area, sizeof log_area, area, KAGUTIN_BLOCK_SIZE *homes
#define STATE state, sizeof state
#define NEWEST newest, KAGUTIN_POSITION_SIZE *homes
#define BATCH batch, sizeof batch

static void done(struct kagutin_reply reply)
{
    if (reply.code == KAGUTIN_DONE)
        return;
    printf("rights_cost: answer %lu\n", (unsigned long)reply.code);
    exit(1);
}

static void range(unsigned writer, unsigned at, unsigned first)
{
    uint8_t *to = list + 32 * writer + 4 * at;

    to[0] = (uint8_t)first;
    to[2] = 1;
}

static void fill(const struct shape *shape)
{
    if (shape->range >= 0) {
        range(WRITER, (unsigned)shape->range, OPEN_HOME);
        range(WRITER, 4 + (unsigned)shape->range, OPEN_HOME);
    }
    if (shape->other < KAGUTIN_WRITERS)
        range(shape->other, 0, OPEN_HOME);
}

static void store_one(uint64_t writer, uint64_t home, const uint8_t *from)
{
    done(kagutin_store(AREAS, STATE, from, KAGUTIN_BLOCK_SIZE, BATCH, writer, home));
}

static void commit_one(uint64_t writer)
{
    done(kagutin_commit(AREAS, STATE, NEWEST, BATCH, writer));
}

/* The list's four blocks, by writer 0, and what lies before them. */
static void commit_list(const struct shape *shape)
{
    unsigned i;

    for (i = 0; i < shape->before; i++) {
        done(kagutin_begin(AREAS, STATE, 0));
        store_one(0, CLOSED_HOME, block);
        commit_one(0);
    }
    done(kagutin_begin(AREAS, STATE, 0));
    for (i = 0; i < LIST_HOMES; i++) {
        store_one(0, LIST + i, list + KAGUTIN_BLOCK_SIZE * i);
        if (shape->where != APART || i + 1 == LIST_HOMES)
            continue;
        commit_one(0);
        done(kagutin_flush(AREAS, STATE, BATCH));
        done(kagutin_begin(AREAS, STATE, 0));
    }
    commit_one(0);
}

static void into_copy(void)
{
    done(kagutin_flush(AREAS, STATE, BATCH));
    done(kagutin_confirm(AREAS, STATE));
    done(kagutin_settle(AREAS, STATE, BATCH));
    done(kagutin_confirm(AREAS, STATE));
    done(kagutin_trim(AREAS, STATE, NEWEST, BATCH));
}

/* The call whose instructions count. */
struct kagutin_reply counted(bool reads, uint64_t home);
struct kagutin_reply counted(bool reads, uint64_t home)
{
    return reads ? kagutin_read(AREAS, STATE, NEWEST, block, sizeof block, WRITER, home)
                 : kagutin_store(AREAS, STATE, block, sizeof block, BATCH, WRITER, home);
}

static int run(const struct shape *shape, bool reads)
{
    bool refused = shape->code[0] != KAGUTIN_DONE;
    uint64_t home = shape->homes == LIST ? 5 : refused ? CLOSED_HOME : OPEN_HOME;
    struct kagutin_reply reply;

    homes = shape->homes;
    done(kagutin_format(AREAS, BATCH));
    done(kagutin_open(AREAS, STATE, NEWEST, BATCH));
    fill(shape);
    if (shape->where != NOWHERE)
        commit_list(shape);
    if (shape->where == COPY)
        into_copy();
    done(kagutin_begin(AREAS, STATE, WRITER));
    if (!reads && !refused)
        store_one(WRITER, home, block);
    reply = counted(reads, home);
    printf("%lu\n", (unsigned long)reply.code);
    return reply.code != shape->code[reads];
}

int main(int count, char **words)
{
    size_t i;

    for (i = 0; i < sizeof shapes / sizeof shapes[0]; i++) {
        if (count < 3)
            puts(shapes[i].name);
        else if (strcmp(words[1], shapes[i].name) == 0)
            return run(&shapes[i], strcmp(words[2], "read") == 0);
    }
    return count >= 3;
}
