/* The store object on a log that is worn out: its start may reach 2^47 and no more, and answer 10 loses nothing. */
/* Clauses: [S-26, S-39, S-73, S-74, S-76] */
#include <stdio.h>
#include <stdlib.h>
#include <string.h>

#include "kagutin_memory.h"
#include "kagutin_store.h"

enum { GROUPS = 4, HOMES = 8 };

static const uint64_t limit = UINT64_C(1) << 47;
static uint8_t memory[KGT_MEMORY_SIZE(GROUPS, HOMES)], scratch[KGT_FORMAT_SIZE(GROUPS, HOMES)];
static uint8_t lasting[KGT_LOG_SIZE(GROUPS) + KGT_HOMES_SIZE(HOMES)], written[sizeof lasting], before[sizeof lasting];
static struct kgt_memory medium;
static struct kagutin store;
static unsigned long checks;

static void check(bool right, const char *what)
{
    checks++;
    if (right)
        return;
    printf("worn_check: wrong: %s, check %lu\n", what, checks);
    exit(1);
}

static void init(void)
{
    kgt_memory_init(&medium, lasting, written, GROUPS, HOMES);
    check(kgt_init(&store, memory, sizeof memory, GROUPS, HOMES, kgt_memory_driver(&medium)).code == KAGUTIN_DONE, "init");
}

/* A new format whose header has this start. */
static void begin_at(uint64_t start)
{
    int i;

    memset(lasting, 0, sizeof lasting);
    init();
    check(kgt_format(&store, scratch, sizeof scratch).code == KAGUTIN_DONE, "format");
    for (i = 0; i < 6; i++)
        lasting[2 + i] = (uint8_t)(start >> (8 * i));
    init();
}

static const uint8_t *block_of(uint8_t byte)
{
    static uint8_t block[KAGUTIN_BLOCK_SIZE];

    memset(block, byte, sizeof block);
    return block;
}

/* One store and a commit with sync, a group of its own. */
static struct kgt_ticket commit(uint64_t home, uint8_t byte)
{
    check(kgt_begin(&store, 0).code == KAGUTIN_DONE, "begin");
    check(kgt_store(&store, 0, home, block_of(byte)).code == KAGUTIN_DONE, "store");
    return kgt_commit_sync(&store, 0);
}

static bool reads(uint64_t home, uint8_t byte)
{
    uint8_t block[KAGUTIN_BLOCK_SIZE];

    return kgt_read(&store, 1, home, block).code == KAGUTIN_DONE && memcmp(block, block_of(byte), sizeof block) == 0;
}

static bool has_home(size_t home, uint8_t byte)
{
    return memcmp(lasting + KGT_LOG_SIZE(GROUPS) + KAGUTIN_BLOCK_SIZE * home, block_of(byte), KAGUTIN_BLOCK_SIZE) == 0;
}

/* An opening that is refused with 10 writes nothing and leaves the store closed. */
static void refused_opening(void)
{
    struct kgt_opened opened;

    memcpy(before, lasting, sizeof lasting);
    init();
    opened = kgt_open(&store);
    check(opened.code == KAGUTIN_WORN_OUT && opened.commits == KGT_NOT_TOLD && opened.error == 0, "an opening of a worn-out log");
    check(memcmp(before, lasting, sizeof lasting) == 0, "it has written nothing");
    check(kgt_begin(&store, 0).code == KGT_CLOSED && kgt_sync(&store).code == KGT_CLOSED, "the store is closed");
}

/* What answers 10 once no place is left; the commits so far stay, and can be read. */
static void worn_out(uint8_t byte)
{
    struct kgt_ticket ticket = commit(5, 99);
    struct kgt_reply reply;
    struct kgt_progress progress;
    uint64_t home;

    check(ticket.code == KAGUTIN_WORN_OUT && ticket.ticket == KGT_NOT_TOLD && ticket.error == 0, "a commit with sync");
    check(kgt_commit(&store, 0).code == KAGUTIN_WORN_OUT, "its transaction is open still: a commit");
    check(kgt_store(&store, 0, 6, block_of(98)).code == KAGUTIN_WORN_OUT, "a store that must log");
    check(kgt_abort(&store, 0).code == KAGUTIN_DONE, "an abort");
    reply = kgt_reserve(&store, 0, 1);
    check(reply.code == KAGUTIN_WORN_OUT, "a reserve");
    check(kgt_begin(&store, 0).code == KAGUTIN_DONE && kgt_abort(&store, 0).code == KAGUTIN_DONE, "the writer has stayed idle");
    progress = kgt_maintain(&store, 0);
    check(progress.code == KAGUTIN_WORN_OUT && !progress.more, "a maintain without a bound");
    progress = kgt_maintain(&store, 1);
    check(progress.code == KAGUTIN_WORN_OUT && !progress.more, "a maintain of one home");
    check(kgt_sync(&store).code == KAGUTIN_DONE, "a sync");
    for (home = 0; home < GROUPS; home++)
        check(reads(home, (uint8_t)(byte + home)) && has_home(home, (uint8_t)(byte + home)),
              "what is committed is read, and is home");
    check(reads(5, 0) && has_home(5, 0), "what is not committed is not there");
}

/* From a start so many groups below the highest: as many commits, each trimmed away, then a log's worth. */
static void wears(uint64_t groups)
{
    uint64_t i;
    struct kgt_progress progress;

    begin_at(limit - GROUPS - groups);
    check(kgt_open(&store).code == KAGUTIN_DONE, "an opening");
    for (i = 0; i < groups; i++) {
        check(commit(7, (uint8_t)i).code == KAGUTIN_DONE, "a commit");
        progress = kgt_maintain(&store, 0);
        check(progress.code == KAGUTIN_DONE, "a trim to a start up to the highest");
    }
    for (i = 0; i < GROUPS; i++)
        check(commit(i, (uint8_t)(40 + i)).code == KAGUTIN_DONE, "a commit behind the highest start");
    worn_out(40);
    refused_opening();
}

int main(void)
{
    begin_at(limit - GROUPS + 1);
    refused_opening();
    wears(0);
    wears(1);
    wears(6);
    printf("worn_check: right, %lu checks\n", checks);
    return 0;
}
