/*
 * The store object on a medium that fails: power that goes after every byte,
 * any choice of words or blocks at a cut, a driver and a lock that fail at each
 * call in turn, a full log. Arguments: every so many bytes (1: all), rounds of
 * words, and of blocks.
 */
/* Clauses: [S-45, S-46, S-54, S-57, S-73, S-76, S-82] */
#include <stdio.h>
#include <stdlib.h>
#include <string.h>

#include "../common/play.h"
#include "kagutin_memory.h"

enum { GROUPS = 5, HOMES = 8, STEPS = 260 };

static uint8_t memory[KGT_MEMORY_SIZE(GROUPS, HOMES)], before[KGT_MEMORY_SIZE(GROUPS, HOMES)];
static uint8_t scratch[KGT_FORMAT_SIZE(GROUPS, HOMES)];
static uint8_t lasting[KGT_LOG_SIZE(GROUPS) + KGT_HOMES_SIZE(HOMES)], written[sizeof lasting], formatted[sizeof lasting];
static struct kgt_memory medium;
static struct kagutin store;
static struct play play;
static bool blocks; /* the medium keeps blocks whole, not only words */

static void check(bool right, const char *what, unsigned long at)
{
    if (right)
        return;
    printf("store_check: wrong: %s, at %lu%s%s\n", what, at, play.wrong ? ": " : "", play.wrong ? play.wrong : "");
    exit(1);
}

static void power_on(void)
{
    memcpy(lasting, formatted, sizeof lasting);
    kgt_memory_init(&medium, lasting, written, GROUPS, HOMES);
    if (blocks)
        kgt_memory_keep_blocks(&medium);
    check(kgt_init(&store, memory, sizeof memory, GROUPS, HOMES, kgt_memory_driver(&medium)).code == 0, "init", 0);
    play_start(&play, &store, HOMES, 1);
}

static void prepare(void)
{
    kgt_memory_init(&medium, lasting, written, GROUPS, HOMES);
    check(kgt_init(&store, memory, sizeof memory, GROUPS, HOMES, kgt_memory_driver(&medium)).code == 0, "init", 0);
    check(kgt_format(&store, scratch, sizeof scratch).code == KAGUTIN_DONE, "format", 0);
    memcpy(formatted, lasting, sizeof lasting);
}

static bool by_chance(void *context, size_t at)
{
    (void)context;
    (void)at;
    return play_random(&play, 2) == 0;
}

/* Opens after a cut; power may go again while it opens. */
static void reopen(unsigned long at, bool chance)
{
    int cuts;

    for (cuts = 0; cuts < 4; cuts++) {
        kgt_memory_cut(&medium, chance ? by_chance : NULL, NULL);
        if (cuts < 3 && play_random(&play, 2))
            kgt_memory_stop_after(&medium, play_random(&play, 4000)); /* blanking included */
        if (kgt_open(&store).code == KAGUTIN_DONE)
            break;
        check(medium.off, "an opening that is not done though power is on", at);
    }
    kgt_memory_stop_after(&medium, UINT64_MAX);
    check(play_opened(&play), "an opening", at);
}

/* Power goes after every n-th byte of a history; then the store is used on. */
static void check_stops(unsigned every)
{
    unsigned long at;
    bool ended = false;

    for (at = 0; !ended; at += every) {
        power_on();
        kgt_memory_stop_after(&medium, at);
        ended = kgt_open(&store).code == KAGUTIN_DONE && play_work(&play, STEPS);
        check(!play.wrong, "work", at);
        reopen(at, false);
        check(play_work(&play, 40), "work after an opening", at);
        reopen(at, false);
    }
    printf("store_check: %lu stops, every %u bytes, %s kept whole\n", at / every, every, blocks ? "blocks" : "words");
}

/* Power goes at random, and of the words or blocks since the last fence any arrive. */
static void check_choices(unsigned long rounds)
{
    unsigned long round;

    power_on();
    reopen(0, true);
    for (round = 0; round < rounds; round++) {
        kgt_memory_stop_after(&medium, play_random(&play, 9000));
        play_work(&play, (unsigned)play_random(&play, 200));
        check(!play.wrong, "work", round);
        reopen(round, true);
    }
    printf("store_check: %lu cuts with any choice of %s\n", rounds, blocks ? "blocks" : "words");
}

/* ---- a driver that fails at its n-th call ---- */

static unsigned long calls_left;
static struct kgt_driver inner;

static int fails(void)
{
    return calls_left == 0 || --calls_left == 0 ? 77 : 0;
}

static int failing_load(void *context, enum kgt_area area, size_t at, uint8_t *bytes, size_t size)
{
    int error = fails();

    return error ? error : inner.load(context, area, at, bytes, size);
}

static int failing_write(void *context, enum kgt_area area, size_t at, const uint8_t *bytes, size_t size)
{
    int error = fails();

    return error ? error : inner.write(context, area, at, bytes, size);
}

static int failing_fence(void *context)
{
    int error = fails();

    return error ? error : inner.fence(context);
}

static void check_refused(struct kgt_reply reply, unsigned long at)
{
    check(reply.code == KGT_DRIVER_FAILED && reply.error == 77 && reply.holder == KGT_NO_HOLDER,
          "a call after a failure is refused", at);
}

static void check_no_ticket(struct kgt_ticket reply, unsigned long at)
{
    check(reply.code == KGT_DRIVER_FAILED && reply.error == 77 && reply.holder == KGT_NO_HOLDER && reply.ticket == KGT_NOT_TOLD,
          "a commit after a failure is refused", at);
}

/* Every call is refused, and changes nothing, also when the driver works again. */
static void check_shut(unsigned long at)
{
    uint8_t block[KAGUTIN_BLOCK_SIZE] = {0};
    struct kagutin_places usage;
    struct kgt_progress progress;
    struct kgt_mark mark;

    calls_left = 1000;
    memcpy(before, memory, sizeof memory);
    check_refused(kgt_begin(&store, 0), at);
    check_refused(kgt_reserve(&store, 0, 1), at);
    check_refused(kgt_store(&store, 0, 1, block), at);
    check_no_ticket(kgt_commit(&store, 0), at);
    check_no_ticket(kgt_commit_sync(&store, 0), at);
    check_refused(kgt_abort(&store, 0), at);
    check_refused(kgt_read(&store, 0, 1, block), at);
    mark = kgt_sync(&store);
    check(mark.code == KGT_DRIVER_FAILED && mark.error == 77 && mark.mark == 0, "a sync after a failure", at);
    progress = kgt_maintain(&store, at % 3);
    check(progress.code == KGT_DRIVER_FAILED && progress.error == 77 && !progress.more, "a maintain after a failure", at);
    check_refused(kgt_usage(&store, &usage), at);
    check(usage.code == KGT_DRIVER_FAILED && usage.holder == KGT_NO_HOLDER && usage.free == 0, "no usage told", at);
    check(calls_left == 1000 && memcmp(before, memory, sizeof memory) == 0, "a refused call does nothing", at);
}

static void check_failures(void)
{
    unsigned long at;
    bool ended = false;

    for (at = 1; !ended; at++) {
        power_on();
        inner = store.runner.driver;
        store.runner.driver.load = failing_load;
        store.runner.driver.write = failing_write;
        store.runner.driver.fence = failing_fence;
        calls_left = at;
        ended = kgt_open(&store).code == KAGUTIN_DONE && play_work(&play, STEPS);
        check(!play.wrong, "work", at);
        if (!ended)
            check_shut(at);
        calls_left = UINT32_MAX;
        kgt_memory_cut(&medium, NULL, NULL);
        check(kgt_open(&store).code == KAGUTIN_DONE && play_opened(&play), "an opening after a failure", at);
        check(play_work(&play, 40), "work after it", at);
    }
    printf("store_check: the driver failed at each of %lu calls\n", at - 1);
}

/* ---- a lock that fails ---- */

static unsigned long locks_left;
static int held;

static int take(void *context)
{
    (void)context;
    check(held == 0, "the lock is not taken twice", locks_left);
    if (locks_left > 0 && --locks_left == 0)
        return 1;
    held = 1;
    return 0;
}

static void give(void *context)
{
    (void)context;
    check(held == 1, "a lock that is given back is held", locks_left);
    held = 0;
}

static void check_lock_refused(uint64_t code)
{
    check(code == KGT_LOCK_FAILED && held == 0, "a call without the lock is refused", 0);
    check(memcmp(before, memory, sizeof memory) == 0, "and does nothing", 0);
    locks_left = 1;
}

static void check_locks(void)
{
    uint8_t block[KAGUTIN_BLOCK_SIZE] = {0};
    struct kagutin_places usage;

    power_on();
    check(kgt_set_lock(&store, take, give, NULL).code == KAGUTIN_DONE, "a lock", 0);
    check(kgt_begin(&store, 0).code == KGT_CLOSED && held == 0, "a closed store gives the lock back", 0);
    check(kgt_open(&store).code == KAGUTIN_DONE && play_work(&play, STEPS) && held == 0, "work under a lock", 0);
    memcpy(before, memory, sizeof memory);
    locks_left = 1;
    check_lock_refused(kgt_begin(&store, 0).code);
    check_lock_refused(kgt_reserve(&store, 0, 1).code);
    check_lock_refused(kgt_store(&store, 0, 1, block).code);
    check_lock_refused(kgt_commit(&store, 0).code);
    check_lock_refused(kgt_abort(&store, 0).code);
    check_lock_refused(kgt_read(&store, 0, 1, block).code);
    check_lock_refused(kgt_sync(&store).code);
    check_lock_refused(kgt_maintain(&store, 0).code);
    check_lock_refused(kgt_usage(&store, &usage).code);
    check_lock_refused(kgt_open(&store).code);
    check_lock_refused(kgt_format(&store, scratch, sizeof scratch).code);
    locks_left = 0;
    check(play_work(&play, STEPS), "work goes on", 0);
}

/* ---- the object's own answers ---- */

static void check_sizes(void)
{
    struct kgt_driver driver = kgt_memory_driver(&medium);
    static uint8_t large[KGT_MEMORY_SIZE(GROUPS + 1, HOMES)];

    power_on();
    check(kgt_init(&store, memory, sizeof memory - 1, GROUPS, HOMES, driver).code == KAGUTIN_BAD_LENGTH, "short memory", 0);
    check(kgt_init(&store, memory, sizeof memory, 3, HOMES, driver).code == KAGUTIN_BAD_LENGTH, "3 groups", 0);
    check(kgt_init(&store, memory, sizeof memory, GROUPS, 0, driver).code == KAGUTIN_BAD_LENGTH, "no home", 0);
    check(kgt_init(&store, large, sizeof large, GROUPS + 1, HOMES, driver).code == KAGUTIN_DONE, "another shape", 0);
    power_on();
    check(kgt_read(&store, 0, 0, scratch).code == KGT_CLOSED, "a closed store", 0);
    check(kgt_format(&store, scratch, sizeof scratch - 1).code == KAGUTIN_SHORT_BATCH, "a short scratch", 0);
    memset(lasting, 0, KAGUTIN_HEADER_SIZE);
    kgt_memory_init(&medium, lasting, written, GROUPS, HOMES);
    check(kgt_open(&store).code == KAGUTIN_BAD_HEADER && kgt_sync(&store).code == KGT_CLOSED, "no store there", 0);
    check(strcmp(kgt_answer_text(KGT_CLOSED), kgt_answer_text(KAGUTIN_FULL)) != 0, "answers in words", 0);
}

/* Writer 2 holds the log's first group; writer 0 fills the rest. */
static void check_full(void)
{
    uint8_t block[KAGUTIN_BLOCK_SIZE] = {0};
    struct kgt_reply reply = {KAGUTIN_DONE, KGT_NO_HOLDER, 0};
    struct kgt_ticket ticket = {KAGUTIN_DONE, 0, KGT_NO_HOLDER, 0};
    uint64_t i;

    power_on();
    check(kgt_open(&store).code == KAGUTIN_DONE, "open", 0);
    check(kgt_begin(&store, 2).code == 0 && kgt_store(&store, 2, 1, block).code == 0, "writer 2", 0);
    check(kgt_store(&store, 2, 2, block).code == 0, "logs one entry", 0);
    for (i = 0; i < 1000 && ticket.code == KAGUTIN_DONE; i++) {
        check(kgt_begin(&store, 0).code == 0 && kgt_store(&store, 0, i % HOMES, block).code == 0, "begin, store", i);
        ticket = kgt_commit(&store, 0);
    }
    check(ticket.code == KAGUTIN_FULL && ticket.holder == 2, "the full log names writer 2", i);
    check(ticket.ticket > kgt_sync(&store).mark, "and its commit is not durable", 0);
    check(kgt_abort(&store, 2).code == KAGUTIN_DONE, "abort", 0);
    ticket = kgt_commit(&store, 0);
    check(ticket.code == KAGUTIN_DONE && ticket.ticket != 0, "then a commit makes room by itself", 0);
    check(kgt_sync(&store).mark >= ticket.ticket, "and is durable", 0);
    kgt_begin(&store, 1);
    for (i = 0; i < 1000 && reply.code == KAGUTIN_DONE; i++)
        reply = kgt_store(&store, 1, i % HOMES, block);
    check(reply.code == KAGUTIN_FULL && reply.holder == 1, "a transaction too long for the log names itself", i);
    for (i = 0; i < 1000; i++)
        check(kgt_abort(&store, 1).code == KAGUTIN_DONE && kgt_begin(&store, 1).code == KAGUTIN_DONE
                  && kgt_store(&store, 1, 0, block).code == KAGUTIN_DONE && kgt_store(&store, 1, 1, block).code == 0,
              "aborted entries never fill the log", i);
}

/* ---- what fills the log ---- */

/* Numbers of places; the holder's first place counted from the start that the opening gave; 8, 0: no holder. */
static void check_usage(uint64_t live, uint64_t dead, uint64_t holder, uint64_t first)
{
    static unsigned long at;
    struct kagutin_places usage;

    at++;
    check(kgt_usage(&store, &usage).code == KAGUTIN_DONE, "usage", at);
    check(usage.live == live, "places that are live", at);
    check(usage.dead == dead, "places that are dead", at);
    check(usage.free == KAGUTIN_GROUP_ENTRIES * GROUPS - live - dead && usage.promised == 0, "places that are free", at);
    check(usage.holder == holder, "the writer that holds the log back", at);
    check(usage.first == (holder < KAGUTIN_WRITERS ? KAGUTIN_GROUP_ENTRIES * GROUPS + first : 0), "from where on", at);
}

/* A writer stores so many blocks, of which the last has no place yet. */
static void store_blocks(uint64_t writer, uint64_t count)
{
    uint8_t block[KAGUTIN_BLOCK_SIZE] = {0};
    uint64_t i;

    for (i = 0; i < count; i++)
        check(kgt_store(&store, writer, i % HOMES, block).code == KAGUTIN_DONE, "store", i);
}

static void begin_and_store(uint64_t writer, uint64_t count)
{
    check(kgt_begin(&store, writer).code == KAGUTIN_DONE, "begin", writer);
    store_blocks(writer, count);
}

static void check_classes(void)
{
    struct kagutin_places usage = {1, 2, 3, 4, 5, 6, 7};

    power_on();
    check(kgt_usage(&store, &usage).code == KGT_CLOSED && usage.code == KGT_CLOSED && usage.live == 0
              && usage.holder == KGT_NO_HOLDER,
          "usage of a closed store", 0);
    check(kgt_open(&store).code == KAGUTIN_DONE, "open", 0);
    check_usage(0, 0, 8, 0);
    begin_and_store(0, 1);
    check_usage(0, 0, 8, 0); /* a held block has no place */
    begin_and_store(1, 3);
    check_usage(2, 0, 1, 0);
    store_blocks(0, 3);
    check_usage(4, 0, 1, 0);
    check(kgt_commit(&store, 1).ticket == KAGUTIN_GROUP_ENTRIES * GROUPS + 5, "commit", 1);
    check_usage(5, 0, 0, 2);
    begin_and_store(5, 2);
    check(kgt_abort(&store, 5).code == KAGUTIN_DONE, "abort", 5);
    check_usage(5, 1, 0, 2);
    check(kgt_sync(&store).code == KAGUTIN_DONE, "sync", 0);
    check_usage(5, 2, 0, 2); /* one place passed over */
}

/* Goes on: trims that an open transaction holds back, the drain, and the same around the ring. */
static void check_drain(void)
{
    unsigned round;

    check(kgt_maintain(&store, 0).code == KAGUTIN_DONE, "maintain", 0);
    check_usage(5, 2, 0, 2); /* writer 0 holds the first group */
    begin_and_store(7, 4);
    check(kgt_commit(&store, 0).code == KAGUTIN_DONE, "commit", 0);
    check_usage(9, 2, 7, 7);
    check(kgt_sync(&store).code == KAGUTIN_DONE && kgt_maintain(&store, 0).code == KAGUTIN_DONE, "sync, maintain", 0);
    check_usage(9, 5, 7, 7); /* writer 0's transaction crosses into the second group, where writer 7's begins */
    check(kgt_abort(&store, 7).code == KAGUTIN_DONE, "abort", 7);
    check_usage(6, 8, 8, 0);
    for (round = 0; round < 3 * GROUPS; round++) {
        check(kgt_sync(&store).code == KAGUTIN_DONE && kgt_maintain(&store, 0).code == KAGUTIN_DONE, "drain", round);
        check_usage(0, 0, 8, 0);
        begin_and_store(round % 8, 2 + round % 9);
        check(kgt_commit(&store, round % 8).code == KAGUTIN_DONE, "commit", round);
        check_usage(2 + round % 9, 0, 8, 0);
    }
}

/* A trim that leaves a commit whose link leads to one before the start. */
static void check_part_trimmed(void)
{
    power_on();
    check(kgt_open(&store).code == KAGUTIN_DONE, "open", 0);
    begin_and_store(0, 2);
    check(kgt_commit(&store, 0).code == KAGUTIN_DONE && kgt_sync(&store).code == KAGUTIN_DONE, "commit, sync", 0);
    check_usage(2, 5, 8, 0);
    begin_and_store(1, 2);
    begin_and_store(0, 1);
    check(kgt_commit(&store, 0).code == KAGUTIN_DONE && kgt_sync(&store).code == KAGUTIN_DONE, "commit, sync", 1);
    check_usage(4, 10, 1, 7);
    check(kgt_maintain(&store, 0).code == KAGUTIN_DONE, "maintain", 0);
    check_usage(2, 5, 1, 7);
}

/* The log is full: of aborted entries, of one transaction. */
static void check_full_usage(void)
{
    uint64_t i;

    power_on();
    check(kgt_open(&store).code == KAGUTIN_DONE, "open", 0);
    for (i = 0; i < KAGUTIN_GROUP_ENTRIES * GROUPS; i++) {
        begin_and_store(3, 2);
        check(kgt_abort(&store, 3).code == KAGUTIN_DONE, "abort", 3);
        check_usage(0, i + 1, 8, 0);
    }
    begin_and_store(4, 2);
    check_usage(1, 0, 4, KAGUTIN_GROUP_ENTRIES * GROUPS); /* the store has made room by itself */
    store_blocks(4, KAGUTIN_GROUP_ENTRIES * GROUPS - 1);
    check_usage(KAGUTIN_GROUP_ENTRIES * GROUPS, 0, 4, KAGUTIN_GROUP_ENTRIES * GROUPS);
    check(kgt_commit(&store, 4).code == KAGUTIN_FULL, "full", 4);
    check_usage(KAGUTIN_GROUP_ENTRIES * GROUPS, 0, 4, KAGUTIN_GROUP_ENTRIES * GROUPS);
}

int main(int count, char **words)
{
    unsigned every = count > 1 ? (unsigned)atoi(words[1]) : 1;
    unsigned long rounds = count > 2 ? (unsigned long)atol(words[2]) : 5000;

    prepare();
    check_sizes();
    check_full();
    check_classes();
    check_drain();
    check_part_trimmed();
    check_full_usage();
    check_locks();
    check_failures();
    check_stops(every ? every : 1);
    check_choices(rounds);
    blocks = true;
    check_failures();
    check_stops(every > KAGUTIN_BLOCK_SIZE ? every : KAGUTIN_BLOCK_SIZE);
    check_choices(rounds);
    puts("store_check: right");
    return 0;
}
