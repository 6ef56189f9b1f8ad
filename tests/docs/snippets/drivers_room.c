/*
 * docs/DRIVERS.md: a task that leaves room to another. That one comes at its
 * third wait, in vain if the log is held, or never (TRY_LEFT).
 */
#include "tries.h"

#include "kagutin_rights.h"

static uint8_t memory[KGT_MEMORY_SIZE(TRY_GROUPS, TRY_HOMES)];
static struct kagutin store;
static unsigned mutex; /* 1: taken */
static enum try_log log_now;
static unsigned waits;

static int take_mutex(void *context)
{
    try_check(context == &mutex && mutex++ == 0, "taken once a call");
    return 0;
}

static void give_mutex(void *context)
{
    try_check(context == &mutex && --mutex == 0, "given back");
}

static void wait_a_little(void)
{
    try_check(++waits <= 10, "the loop ends");
    if (log_now == TRY_LEFT || waits != 3)
        return;
    kgt_sync(&store);
    while (kgt_maintain(&store, 4).more)
        ;
}

#include "drivers_room.snippet"

static uint8_t before[2 * KAGUTIN_BLOCK_SIZE], after[2 * KAGUTIN_BLOCK_SIZE];

static void judge_pair(const struct try_case *now, bool kept, bool met)
{
    uint8_t found[2 * KAGUTIN_BLOCK_SIZE];
    struct kagutin *opened;

    try_cut(now->lands);
    opened = try_opened();
    try_check(kgt_read(opened, 3, 6, found).code == KAGUTIN_DONE, "read");
    try_check(kgt_read(opened, 3, 7, found + KAGUTIN_BLOCK_SIZE).code == KAGUTIN_DONE, "read");
    try_check(!kept || memcmp(found, after, sizeof found) == 0, "what is called durable is there after a cut");
    try_check(memcmp(found, before, sizeof found) == 0 || (memcmp(found, after, sizeof found) == 0 && (kept || met)),
              "both or neither");
}

static bool in_pair(const struct try_case *now)
{
    struct kgt_driver driver = try_medium(now->landing);
    bool kept, met;

    log_now = now->log;
    waits = 0;
    try_check(start(driver) && keep_pair(before), "a good driver");
    try_fill(&store, now->log);
    waits = 0;
    try_arm(now);
    kept = keep_pair(after);
    met = try_disarm();
    try_check(met || kept == (now->log <= TRY_FULL), "durable where there is room, or another task makes it");
    try_check(met || waits == (now->log == TRY_ROOMY ? 0u : now->log == TRY_FULL ? 3u : 10u), "waits as long as it should");
    if (!kept && !met) {
        try_free(&store);
        try_check(keep_pair(before), "and later it can be kept");
    }
    judge_pair(now, kept, met);
    return met;
}

static bool in_start(const struct try_case *now)
{
    struct kgt_driver driver = try_medium(now->landing);
    bool started, kept, met;

    waits = 0;
    try_check(start(driver) && keep_pair(before), "a good driver");
    try_cut(now->lands);
    try_arm(now);
    started = start(driver);
    kept = keep_pair(after);
    met = try_disarm();
    try_check((started || !kept) && (met || kept), "started and kept, or neither");
    judge_pair(now, kept, met);
    return met;
}

/* A list that gives writer 3 home 6 alone: the second store is denied, and nothing stays open or promised. */
static void check_denied(void)
{
    struct kagutin_places places;
    struct kgt_rights list;

    kgt_rights_clear(&list);
    try_check(start(try_medium(KGT_LANDS_BLOCKS)) && kgt_rights_allow_store(&list, 3, 6, 1), "start");
    try_check(kgt_set_rights(&store, &list).code == KAGUTIN_DONE && !keep_pair(after), "a list");
    try_check(kgt_usage(&store, &places).code == KAGUTIN_DONE && places.promised == 0, "nothing is promised");
    try_check(kgt_begin(&store, 3).code == KAGUTIN_DONE, "nothing is open");
}

int main(void)
{
    try_block(before, 1);
    try_block(before + KAGUTIN_BLOCK_SIZE, 2);
    try_block(after, 3);
    try_block(after + KAGUTIN_BLOCK_SIZE, 4);
    try_all(in_pair);
    try_all(in_start);
    check_denied();
    return try_end("drivers_room");
}
