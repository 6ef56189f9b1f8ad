/*
 * Replies that cannot be misread: a driver that fails at each of its calls in
 * turn, by 1, -5 and 2^31 - 1, under every call of the object, with room in the
 * log and without. What the reply's fields say one by one is held against what
 * is so: above all, a commit that "mark >= ticket" calls durable is there after
 * a cut that loses everything else.
 */
/* Clauses: [S-74] */
#include <limits.h>
#include <stdio.h>
#include <stdlib.h>
#include <string.h>

#include "kagutin_memory.h"
#include "../common/operations.h"

enum { GROUPS = 5, HOMES = 30, MOST_TURNS = 1000 };

static uint8_t memory[KGT_MEMORY_SIZE(GROUPS, HOMES)], scratch[KGT_FORMAT_SIZE(GROUPS, HOMES)];
static uint8_t lasting[KGT_LOG_SIZE(GROUPS) + KGT_HOMES_SIZE(HOMES)], written[sizeof lasting], formatted[sizeof lasting];
static struct kgt_memory medium;
static struct kgt_driver inner;
static struct kagutin store;
static unsigned long checks, calls_left;
static int error_told;
static const char *doing = "";

static void check(bool right, const char *what)
{
    checks++;
    if (right)
        return;
    printf("replies_check: wrong: %s, in %s, error %d, check %lu\n", what, doing, error_told, checks);
    exit(1);
}

static int fails(void)
{
    return calls_left && --calls_left == 0 ? error_told : 0;
}

static int load(void *context, enum kgt_area area, size_t at, uint8_t *bytes, size_t size)
{
    int error = fails();

    return error ? error : inner.load(context, area, at, bytes, size);
}

static int write(void *context, enum kgt_area area, size_t at, const uint8_t *bytes, size_t size)
{
    int error = fails();

    return error ? error : inner.write(context, area, at, bytes, size);
}

static int fence(void *context)
{
    int error = fails();

    return error ? error : inner.fence(context);
}

static struct kgt_driver failing(void)
{
    struct kgt_driver driver;

    inner = kgt_memory_driver(&medium);
    driver.context = inner.context;
    driver.load = load;
    driver.write = write;
    driver.fence = fence;
    driver.landing = inner.landing;
    return driver;
}

/* One commit of one block, by writer 0. */
static struct kgt_ticket commit_byte(uint64_t home, uint8_t byte)
{
    uint8_t block[KAGUTIN_BLOCK_SIZE] = {0};

    block[0] = byte;
    check(kgt_begin(&store, 0).code == KAGUTIN_DONE && kgt_store(&store, 0, home, block).code == KAGUTIN_DONE, "begin, store");
    return kgt_commit(&store, 0);
}

/* A store at work: writer 4 has a transaction open, pump 0 runs, alarm 8 is open, a round is under way. Full: no place is free. */
static void start(bool full)
{
    uint8_t block[KAGUTIN_BLOCK_SIZE] = {7};
    struct kagutin_places places;
    uint8_t byte = 0;

    calls_left = 0;
    memcpy(lasting, formatted, sizeof lasting);
    kgt_memory_init(&medium, lasting, written, GROUPS, HOMES);
    check(kgt_init(&store, memory, sizeof memory, GROUPS, HOMES, failing()).code == KAGUTIN_DONE, "init");
    check(kgt_open(&store).code == KAGUTIN_DONE, "open");
    check(kgt_pump_start(&store, 0, 0, 50).code == KAGUTIN_DONE && kgt_alarm_arrive(&store, 0, 8, 2, 50).code == 0, "events");
    check(operate(&store, OP_BANDS_SET).code == KAGUTIN_DONE, "a table");
    check(kgt_sync(&store).code == KAGUTIN_DONE && kgt_maintain(&store, 1).more, "a round");
    do {
        check(commit_byte(3, ++byte).code == KAGUTIN_DONE, "commit");
        check(kgt_usage(&store, &places).code == KAGUTIN_DONE, "usage");
    } while (full && places.free > 1);
    check(kgt_begin(&store, OP_WRITER).code == 0 && kgt_store(&store, OP_WRITER, 1, block).code == 0, "writer 4");
    if (full)
        check(commit_byte(3, ++byte).code == KAGUTIN_DONE, "the last place");
}

/* The driver fails at the n-th call under one operation; false once it takes fewer. */
static bool fail_at(enum operation operation, bool full, unsigned long n, int error)
{
    struct outcome outcome;
    const char *wrong;
    unsigned turns = 0;
    bool met;

    start(full);
    doing = operation_names[operation];
    error_told = error;
    calls_left = n;
    outcome = operate(&store, operation);
    met = calls_left == 0;
    wrong = misleads(&outcome);
    check(!wrong, wrong ? wrong : "");
    check(met == (outcome.code == KGT_DRIVER_FAILED), "answer 65 where the driver fails, and only there");
    check(!met || outcome.error == error, "the error that the driver gave");
    while (operation == OP_MAINTAIN && kgt_maintain(&store, 4).more)
        check(++turns < MOST_TURNS, "a loop over more ends");
    check(!met || turns == 0, "no more to do after a failure");
    return met;
}

/* The idiom of the headers, with a failure at the n-th driver call of commit and sync, and then a cut that loses what it may. */
static bool durable_at(bool together, bool full, unsigned long n, int error)
{
    uint8_t block[KAGUTIN_BLOCK_SIZE] = {0};
    struct kgt_ticket ticket;
    bool durable, met;

    start(full);
    doing = together ? "commit_sync" : "commit, sync";
    error_told = error;
    calls_left = n;
    if (together) {
        durable = kgt_commit_sync(&store, OP_WRITER).code == KAGUTIN_DONE;
    } else {
        ticket = kgt_commit(&store, OP_WRITER);
        durable = kgt_sync(&store).mark >= ticket.ticket;
    }
    met = calls_left == 0;
    calls_left = 0;
    check(durable == !met, "durable where nothing failed");
    kgt_memory_cut(&medium, NULL, NULL);
    check(kgt_open(&store).code == KAGUTIN_DONE && kgt_read(&store, 0, 1, block).code == KAGUTIN_DONE, "open, read");
    check(!durable || block[0] == 7, "what is called durable is there");
    return met;
}

int main(void)
{
    static const int errors[] = {1, -5, INT_MAX};
    size_t i, full;
    unsigned long n;
    int operation;

    kgt_memory_init(&medium, lasting, written, GROUPS, HOMES);
    check(kgt_init(&store, memory, sizeof memory, GROUPS, HOMES, failing()).code == KAGUTIN_DONE, "init");
    check(kgt_format(&store, scratch, sizeof scratch).code == KAGUTIN_DONE, "format");
    memcpy(formatted, lasting, sizeof lasting);
    for (i = 0; i < sizeof errors / sizeof *errors; i++)
        for (full = 0; full < 2; full++) {
            for (operation = 0; operation < OPERATIONS; operation++)
                for (n = 1; fail_at((enum operation)operation, full, n, errors[i]); n++)
                    ;
            for (n = 1; durable_at(false, full, n, errors[i]); n++)
                ;
            for (n = 1; durable_at(true, full, n, errors[i]); n++)
                ;
        }
    printf("replies_check: right, %lu checks\n", checks);
    return 0;
}
