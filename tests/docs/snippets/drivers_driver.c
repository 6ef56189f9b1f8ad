/* docs/DRIVERS.md: a driver for memory in the address space, behind a cache that a board flushes, or fails to. */
#include "tries.h"

#include <unistd.h> /* a driver's names must not meet those of POSIX */

enum { WORD = 8, LOG_WORDS = KGT_LOG_SIZE(TRY_GROUPS) / WORD, HOME_WORDS = KGT_HOMES_SIZE(TRY_HOMES) / WORD };

static uint64_t seen[LOG_WORDS + HOME_WORDS], arrived[LOG_WORDS + HOME_WORDS];

#define LOG_ADDRESS seen
#define HOMES_ADDRESS (seen + LOG_WORDS)

static int flush_cache(void)
{
    int error = try_failure();

    if (!error)
        memcpy(arrived, seen, sizeof arrived);
    return error;
}

#include "drivers_driver.snippet"

static uint8_t memory[KGT_MEMORY_SIZE(TRY_GROUPS, TRY_HOMES)], scratch[KGT_FORMAT_SIZE(TRY_GROUPS, TRY_HOMES)];
static uint8_t before[KAGUTIN_BLOCK_SIZE], after[KAGUTIN_BLOCK_SIZE];
static struct kagutin store;

static bool keep(const uint8_t *block)
{
    return kgt_begin(&store, 0).code == KAGUTIN_DONE && kgt_store(&store, 0, 7, block).code == KAGUTIN_DONE
        && kgt_commit_sync(&store, 0).code == KAGUTIN_DONE;
}

/* Any choice of the words since the last flush arrives. */
static void cut_power(enum try_lands lands)
{
    size_t i;

    for (i = 0; i < LOG_WORDS + HOME_WORDS; i++)
        if (!try_unit_lands(lands, i))
            seen[i] = arrived[i];
    memcpy(arrived, seen, sizeof arrived);
}

static bool in_driver(const struct try_case *now)
{
    uint8_t block[KAGUTIN_BLOCK_SIZE];
    bool kept, met;

    try_check(kgt_init(&store, memory, sizeof memory, TRY_GROUPS, TRY_HOMES, driver).code == KAGUTIN_DONE, "init");
    try_check(kgt_format(&store, scratch, sizeof scratch).code == KAGUTIN_DONE, "format");
    try_check(kgt_open(&store).code == KAGUTIN_DONE, "open");
    try_check(keep(before), "a good board");
    try_fill(&store, now->log);
    try_arm(now);
    kept = keep(after);
    if (!kept && try_disarm())
        try_check(kgt_begin(&store, 1).code == KGT_DRIVER_FAILED, "shut after a failure");
    met = try_disarm();
    try_check(met || kept == (now->log <= TRY_FULL), "durable where there is room, or can be made");
    cut_power(now->lands);
    try_check(kgt_read(try_opened_on(driver), 0, 7, block).code == KAGUTIN_DONE, "read");
    try_check(!kept || memcmp(block, after, sizeof block) == 0, "what is called durable is there after a cut");
    try_check(memcmp(block, before, sizeof block) == 0 || (memcmp(block, after, sizeof block) == 0 && (kept || met)),
              "one of the two blocks");
    return met;
}

static bool in_opening(const struct try_case *now)
{
    struct kgt_opened opened;
    bool met;

    try_check(kgt_init(&store, memory, sizeof memory, TRY_GROUPS, TRY_HOMES, driver).code == KAGUTIN_DONE, "init");
    try_arm(now);
    opened = kgt_open(&store);
    met = try_disarm();
    try_check(met == (opened.code == KGT_DRIVER_FAILED) && (!met || opened.error == now->error), "the board's error is told");
    return met;
}

int main(void)
{
    try_block(before, 1);
    try_block(after, 2);
    try_all(in_driver);
    try_all(in_opening);
    try_check(getpid() > 0, "POSIX");
    return try_end("drivers_driver");
}
