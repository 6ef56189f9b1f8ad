/*
 * What a commit costs with all its calls: commit_cost CASE has eight writers commit four blocks each, block by block in turn, at G 1,024
 * and D 4,096, with a flush and a confirm after every commit or every eighth, and settles and trims a log of three quarters. Batches are
 * run on a copy of lasting memory. callgrind counts what happens inside counted() (tests/costs/commit-cost.sh). Without words it
 * lists the cases, each with its commits and the most instructions that one may take, 0 for no limit.
 */
#include <stdio.h>
#include <stdlib.h>
#include <string.h>

#include "kagutin.h"

enum { GROUPS = KAGUTIN_MAX_GROUPS, HOMES = 4096, BLOCKS = 4, COMMITS = 6144, LIST_END = 12, ROOM_AT = GROUPS / 4 * 3 };

static const struct shape {
    const char *name;
    unsigned each; /* commits for one flush */
    unsigned long most;
} shapes[] = {{"flush-own", 1, 4700}, {"flush-eight", KAGUTIN_WRITERS, 3660}};

static uint8_t log_area[KAGUTIN_HEADER_SIZE + KAGUTIN_GROUP_SIZE * GROUPS], area[KAGUTIN_BLOCK_SIZE * HOMES];
static uint8_t lasting_log[sizeof log_area], lasting_area[sizeof area];
static uint8_t state[KAGUTIN_STATE_SIZE], newest[KAGUTIN_POSITION_SIZE * HOMES], block[KAGUTIN_BLOCK_SIZE];
static uint8_t batch[KAGUTIN_GW_SIZE * GROUPS + KAGUTIN_HW_SIZE * HOMES + 1024];

#define AREAS log_area, sizeof log_area, area, sizeof area
#define STATE state, sizeof state
#define NEWEST newest, sizeof newest
#define BATCH batch, sizeof batch

static size_t number16(const uint8_t *bytes)
{
    return (size_t)bytes[0] | (size_t)bytes[1] << 8;
}

/* Writes one record to lasting memory and gives its size. */
static size_t run_record(const uint8_t *record)
{
    switch (record[0]) {
    case 'G':
        memcpy(lasting_log + kagutin_log_size(number16(record + 2)), record + 4, KAGUTIN_GROUP_SIZE);
        return KAGUTIN_GW_SIZE;
    case 'H':
        memcpy(lasting_area + kagutin_area_size(number16(record + 2)), record + 4, KAGUTIN_BLOCK_SIZE);
        return KAGUTIN_HW_SIZE;
    case 'K': memcpy(lasting_log, record + 2, KAGUTIN_HEADER_SIZE); return KAGUTIN_KW_SIZE;
    default: return KAGUTIN_FN_SIZE;
    }
}

static void done(struct kagutin_reply reply)
{
    size_t at = 0;

    if (reply.code != KAGUTIN_DONE) {
        printf("commit_cost: answer %lu\n", (unsigned long)reply.code);
        exit(1);
    }
    while (at < reply.size)
        at += run_record(batch + at);
}

/* Behind the list of rights. */
static uint64_t random_home(void)
{
    static uint64_t seed = 7;

    seed = seed * UINT64_C(6364136223846793005) + UINT64_C(1442695040888963407);
    return LIST_END + (seed >> 32) % (HOMES - LIST_END);
}

static uint64_t number64(const uint8_t *bytes)
{
    uint64_t value;

    memcpy(&value, bytes, sizeof value);
    return value;
}

static void make_durable(void)
{
    done(kagutin_flush(AREAS, STATE, BATCH));
    done(kagutin_confirm(AREAS, STATE));
}

/* The start and the next group are the strip's third and fourth number. */
static void make_room(void)
{
    if (number64(state + 24) - number64(state + 16) < ROOM_AT)
        return;
    done(kagutin_settle(AREAS, STATE, BATCH));
    done(kagutin_confirm(AREAS, STATE));
    done(kagutin_trim(AREAS, STATE, NEWEST, BATCH));
}

/* One transaction of each writer. */
static void commit_eight(unsigned each)
{
    uint64_t writer;
    int i;

    for (writer = 0; writer < KAGUTIN_WRITERS; writer++)
        done(kagutin_begin(AREAS, STATE, writer));
    for (i = 0; i < BLOCKS; i++)
        for (writer = 0; writer < KAGUTIN_WRITERS; writer++)
            done(kagutin_store(AREAS, STATE, block, sizeof block, BATCH, writer, random_home()));
    for (writer = 0; writer < KAGUTIN_WRITERS; writer++) {
        done(kagutin_commit(AREAS, STATE, NEWEST, BATCH, writer));
        if ((writer + 1) % each == 0)
            make_durable();
    }
    make_room();
}

/* What is counted; kept a function of its own, so that callgrind knows its end. */
__attribute__((noinline)) static void counted(unsigned each)
{
    unsigned i;

    for (i = 0; i < COMMITS; i += KAGUTIN_WRITERS)
        commit_eight(each);
}

int main(int count, char **words)
{
    size_t i;

    for (i = 0; i < sizeof shapes / sizeof shapes[0]; i++) {
        if (count < 2) {
            printf("%s %d %lu\n", shapes[i].name, COMMITS, shapes[i].most);
        } else if (strcmp(words[1], shapes[i].name) == 0) {
            done(kagutin_format(AREAS, BATCH));
            done(kagutin_open(AREAS, STATE, NEWEST, BATCH));
            counted(shapes[i].each);
            return 0;
        }
    }
    return count >= 2;
}
