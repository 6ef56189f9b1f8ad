/*
 * Fetch, revise and transact by the bare calls: each of their refusals alone,
 * with everything that was lent left as it was, and logs of all table sizes
 * walked by trim and usage.
 */
/* Clauses: [S-8, S-47, S-62] */
#include <stdio.h>
#include <stdlib.h>
#include <string.h>

#include "kagutin_chains.h"
#include "kagutin_store.h"

enum { GROUPS = 4, HOMES = 16, MOST_GROUPS = 600, BLOCKS = 2 * KAGUTIN_BLOCK_SIZE };

static uint8_t log_area[KGT_LOG_SIZE(MOST_GROUPS)], area[KGT_HOMES_SIZE(HOMES)], state[KAGUTIN_STATE_SIZE];
static uint8_t newest[KGT_NEWEST_SIZE(HOMES)], batch[KGT_FORMAT_SIZE(MOST_GROUPS, HOMES)], blocks[512];
static size_t log_size;
static unsigned long checks;

#define AREAS log_area, log_size, area, sizeof area
#define STATE state, sizeof state
#define NEWEST newest, sizeof newest
#define BATCH batch, sizeof batch
#define ON AREAS, STATE, NEWEST

static void check(bool right, const char *what)
{
    checks++;
    if (right)
        return;
    printf("many_check: wrong: %s, at check %lu\n", what, checks);
    exit(1);
}

static void start(size_t groups)
{
    log_size = KGT_LOG_SIZE(groups);
    check(kagutin_format(AREAS, BATCH).code == KAGUTIN_DONE, "a format");
    check(kagutin_open(AREAS, STATE, NEWEST, BATCH).code == KAGUTIN_DONE, "an opening");
}

static uint8_t kept_log[sizeof log_area], kept_state[sizeof state], kept_newest[sizeof newest];

static void keep(void)
{
    memcpy(kept_log, log_area, sizeof log_area);
    memcpy(kept_state, state, sizeof state);
    memcpy(kept_newest, newest, sizeof newest);
}

static void check_refused(struct kagutin_reply reply, uint64_t code, const char *what)
{
    check(reply.code == code && reply.figure == 0 && reply.size == 0, what);
    check(memcmp(kept_log, log_area, sizeof log_area) == 0 && memcmp(kept_state, state, sizeof state) == 0
              && memcmp(kept_newest, newest, sizeof newest) == 0,
          what);
}

/* A refused call: its number, no figure, and log, state and newest positions as they were. */
#define refused(call, code, what) (keep(), check_refused(call, code, what))

/* What refuses all three, then what refuses those that store. */
static void check_refusals(void)
{
    uint8_t saved[sizeof state];

    start(GROUPS);
    refused(kagutin_fetch(ON, blocks, 100, 1, 3), KAGUTIN_BAD_LENGTH, "a fetch of a part of a block");
    refused(kagutin_fetch(ON, blocks, 0, 1, 3), KAGUTIN_BAD_LENGTH, "a fetch of nothing");
    refused(kagutin_fetch(ON, blocks, 512, 1, 3), KAGUTIN_BAD_LENGTH, "a fetch of eight homes");
    refused(kagutin_fetch(AREAS, STATE, newest, 8, blocks, BLOCKS, 1, 3), KAGUTIN_BAD_LENGTH, "short newest positions");
    refused(kagutin_fetch(ON, blocks, BLOCKS, 8, 3), KAGUTIN_BAD_WRITER, "a fetch by writer 8");
    refused(kagutin_revise(ON, blocks, 100, 1, 3), KAGUTIN_BAD_LENGTH, "a revise of a part of a block");
    refused(kagutin_revise(ON, blocks, BLOCKS, 8, 3), KAGUTIN_BAD_WRITER, "a revise by writer 8");
    refused(kagutin_revise(ON, blocks, BLOCKS, 1, HOMES - 1), KAGUTIN_BAD_HOME, "a revise past the last home");
    refused(kagutin_transact(ON, blocks, 100, BATCH, 1, 3), KAGUTIN_BAD_LENGTH, "a transact of a part of a block");
    refused(kagutin_transact(ON, blocks, BLOCKS, BATCH, 1, HOMES), KAGUTIN_BAD_HOME, "a transact at no home");
    refused(kagutin_transact(ON, blocks, BLOCKS, BATCH, 1, HOMES + 1), KAGUTIN_BAD_HOME, "a transact further on");
    refused(kagutin_transact(ON, blocks, BLOCKS, BATCH, 1, 8), KAGUTIN_STORE_DENIED, "a transact on the list by writer 1");
    refused(kagutin_revise(ON, blocks, BLOCKS, 1, 8), KAGUTIN_STORE_DENIED, "a revise of the list by writer 1");
    memcpy(saved, state, sizeof state);
    state[0] ^= 1;
    refused(kagutin_fetch(ON, blocks, BLOCKS, 1, 3), KAGUTIN_BAD_STATE, "a state of other areas");
    refused(kagutin_transact(ON, blocks, BLOCKS, BATCH, 1, 3), KAGUTIN_BAD_STATE, "the same for a transact");
    memcpy(state, saved, sizeof state);
    check(kagutin_begin(AREAS, STATE, 1).code == KAGUTIN_DONE, "a begin");
    refused(kagutin_transact(ON, blocks, BLOCKS, BATCH, 1, 3), KAGUTIN_NOT_IDLE, "a transact inside a transaction");
    check(kagutin_abort(AREAS, STATE, 1).code == KAGUTIN_DONE, "an abort");
    check(kagutin_reserve(AREAS, STATE, 2, 7 * GROUPS - 1).code == KAGUTIN_DONE, "a reserve of all places but one");
    refused(kagutin_transact(ON, blocks, BLOCKS, BATCH, 1, 3), KAGUTIN_FULL, "two entries with one place");
    check(kagutin_abort(AREAS, STATE, 2).code == KAGUTIN_DONE, "its abort");
    check(kagutin_transact(ON, blocks, 448, BATCH, 1, 0).code == KAGUTIN_DONE, "a transact of seven homes");
    refused(kagutin_transact(ON, blocks, 448, batch, 515, 1, 0), KAGUTIN_SHORT_BATCH, "a batch one byte short");
}

/* A list in homes 8 to 11: writer 1 stores to homes 0 and 1 and reads home 0, writer 0 nothing. */
static void check_rights(void)
{
    static const uint8_t may_store[4] = {0, 0, 2, 0}, may_read[4] = {0, 0, 1, 0};
    uint8_t list[4 * KAGUTIN_BLOCK_SIZE] = {0};

    start(GROUPS);
    memcpy(list + 32, may_store, sizeof may_store);
    memcpy(list + 48, may_read, sizeof may_read);
    check(kagutin_transact(ON, list, sizeof list, BATCH, 0, 8).code == KAGUTIN_DONE, "a list");
    check(kagutin_fetch(ON, blocks, 64, 1, 0).code == KAGUTIN_DONE, "a fetch with the right");
    refused(kagutin_fetch(ON, blocks, BLOCKS, 1, 0), KAGUTIN_READ_DENIED, "a fetch with the right to its first home");
    check(kagutin_revise(ON, blocks, 64, 1, 0).code == KAGUTIN_DONE, "a revise with both rights");
    refused(kagutin_revise(ON, blocks, BLOCKS, 1, 0), KAGUTIN_READ_DENIED, "a revise without the right to read");
    refused(kagutin_revise(ON, blocks, BLOCKS, 1, 1), KAGUTIN_STORE_DENIED, "a revise without the right to store");
    check(kagutin_transact(ON, blocks, BLOCKS, BATCH, 1, 0).code == KAGUTIN_DONE, "a transact with the right");
    refused(kagutin_transact(ON, blocks, BLOCKS, BATCH, 1, 1), KAGUTIN_STORE_DENIED,
            "a transact with the right to its first home");
    refused(kagutin_transact(ON, blocks, 64, BATCH, 0, 0), KAGUTIN_STORE_DENIED, "a transact of writer 0 without the right");
    state[928] = 7; /* a sign that says nothing: the list's blocks are looked at */
    check(kagutin_transact(ON, blocks, 64, BATCH, 1, 0).code == KAGUTIN_DONE, "the same by the blocks alone");
    refused(kagutin_transact(ON, blocks, 64, BATCH, 1, 2), KAGUTIN_STORE_DENIED, "and without the right");
}

/* Fewer than twelve homes: no list can be there. */
static void check_small(void)
{
    size_t small = KGT_HOMES_SIZE(8), few = KGT_NEWEST_SIZE(8);

    log_size = KGT_LOG_SIZE(GROUPS);
    check(kagutin_format(log_area, log_size, area, small, BATCH).code == KAGUTIN_DONE, "a small format");
    check(kagutin_open(log_area, log_size, area, small, STATE, newest, few, BATCH).code == KAGUTIN_DONE, "its opening");
    check(kagutin_transact(log_area, log_size, area, small, STATE, newest, few, blocks, BLOCKS, BATCH, 5, 6).code == KAGUTIN_DONE,
          "a transact that anyone may");
}

/* A walk in tables of each size: half a log settled, so that trim and usage look at the rest. */
static void check_sizes(void)
{
    static const size_t sizes[] = {64, 65, 128, 129, 256, 257, 512, 513, MOST_GROUPS};
    size_t i, n;

    for (i = 0; i < sizeof sizes / sizeof sizes[0]; i++) {
        start(sizes[i]);
        for (n = 0; n < 40; n++)
            check(kagutin_transact(ON, blocks, 192, BATCH, n % 8, n % 5).code == KAGUTIN_DONE, "a transact");
        check(kagutin_flush(AREAS, STATE, BATCH).code == KAGUTIN_DONE, "a flush");
        check(kagutin_settle(AREAS, STATE, BATCH).code == KAGUTIN_DONE, "a settle");
        for (n = 0; n < 40; n++)
            check(kagutin_transact(ON, blocks, 192, BATCH, n % 8, n % 5).code == KAGUTIN_DONE, "a transact behind it");
        check(kagutin_usage(AREAS, STATE).live == 240, "places live");
        check(kagutin_trim(AREAS, STATE, NEWEST, BATCH).code == KAGUTIN_DONE, "a trim");
        check(kagutin_usage(AREAS, STATE).code == KAGUTIN_DONE, "usage after it");
    }
}

int main(void)
{
    check_refusals();
    check_rights();
    check_small();
    check_sizes();
    printf("many_check: %lu checks passed\n", checks);
    return 0;
}
