/*
 * A lock that is refused: at its k-th taking, for every k, in every call of the
 * object, with room in the log and without. Answer 66 means that nothing has
 * changed, neither the lent memory nor what lasts; every call takes the lock
 * once and gives it back.
 */
/* Clauses: [S-75] */
#include <stdio.h>
#include <stdlib.h>
#include <string.h>

#include "kagutin_memory.h"
#include "../common/operations.h"

enum { GROUPS = 5, HOMES = 30 };

static uint8_t memory[KGT_MEMORY_SIZE(GROUPS, HOMES)], before[sizeof memory], scratch[KGT_FORMAT_SIZE(GROUPS, HOMES)];
static uint8_t lasting[KGT_LOG_SIZE(GROUPS) + KGT_HOMES_SIZE(HOMES)], lasted[sizeof lasting], written[sizeof lasting];
static struct kgt_memory medium;
static struct kagutin store;
static unsigned long checks, taken, refused_at;
static int held;
static const char *doing = "";

static void check(bool right, const char *what)
{
    checks++;
    if (right)
        return;
    printf("lock_check: wrong: %s, in %s, taking %lu, check %lu\n", what, doing, refused_at, checks);
    exit(1);
}

static int take(void *context)
{
    (void)context;
    check(held == 0, "the lock is taken twice");
    if (++taken == refused_at)
        return 1;
    held = 1;
    return 0;
}

static void give(void *context)
{
    (void)context;
    check(held == 1, "a lock is given back that is not held");
    held = 0;
}

static void start(bool full)
{
    uint8_t block[KAGUTIN_BLOCK_SIZE] = {7};
    struct kagutin_places places;

    refused_at = 0;
    kgt_memory_init(&medium, lasting, written, GROUPS, HOMES);
    check(kgt_init(&store, memory, sizeof memory, GROUPS, HOMES, kgt_memory_driver(&medium)).code == KAGUTIN_DONE, "init");
    check(kgt_set_lock(&store, take, give, NULL).code == KAGUTIN_DONE, "set_lock");
    check(kgt_format(&store, scratch, sizeof scratch).code == 0 && kgt_open(&store).code == 0, "format, open");
    check(kgt_pump_start(&store, 0, 0, 50).code == 0 && kgt_alarm_arrive(&store, 0, 8, 2, 50).code == 0, "events");
    check(operate(&store, OP_BANDS_SET).code == KAGUTIN_DONE, "a table");
    do {
        check(kgt_begin(&store, 1).code == 0 && kgt_store(&store, 1, 3, block).code == 0 && kgt_commit(&store, 1).code == 0,
              "commit");
        check(kgt_usage(&store, &places).code == KAGUTIN_DONE, "usage");
    } while (full && places.free > 0);
    check(kgt_begin(&store, OP_WRITER).code == 0 && kgt_store(&store, OP_WRITER, 1, block).code == 0, "writer 4");
}

/* False once the call takes the lock fewer than k times. */
static bool refuse(enum operation operation, bool full, unsigned long k)
{
    struct outcome outcome;
    const char *wrong;

    start(full);
    doing = operation_names[operation];
    memcpy(before, memory, sizeof memory);
    memcpy(lasted, lasting, sizeof lasting);
    taken = 0;
    refused_at = k;
    outcome = operate(&store, operation);
    wrong = misleads(&outcome);
    check(!wrong, wrong ? wrong : "");
    check(held == 0, "the lock is given back");
    if (taken < k) {
        check(outcome.code == KAGUTIN_DONE && taken == 1, "done under one lock");
        return false;
    }
    check(outcome.code == KGT_LOCK_FAILED, "answer 66");
    check(memcmp(before, memory, sizeof memory) == 0, "66, and lent memory has changed");
    check(memcmp(lasted, lasting, sizeof lasting) == 0, "66, and lasting memory has changed");
    return true;
}

int main(void)
{
    int operation, full;
    unsigned long k;

    for (full = 0; full < 2; full++)
        for (operation = 0; operation < OPERATIONS; operation++)
            for (k = 1; refuse((enum operation)operation, full != 0, k); k++)
                ;
    printf("lock_check: right, %lu checks\n", checks);
    return 0;
}
