/* include/kagutin_store.h: start and keep. */
#include "tries.h"

#include "kagutin_store.snippet"

static uint8_t before[KAGUTIN_BLOCK_SIZE], after[KAGUTIN_BLOCK_SIZE];

static bool in_keep(const struct try_case *now)
{
    bool kept, met;

    try_check(start(try_medium(now->landing)) && keep(before), "a good driver");
    try_fill(&store, now->log);
    try_arm(now);
    kept = keep(after);
    met = try_disarm();
    try_check(met || kept == (now->log <= TRY_FULL), "durable where there is room, or can be made");
    if (!kept && !met) {
        try_free(&store);
        try_check(keep(before), "and later it can be kept");
    }
    try_judge(now, kept, met, 7, before, after);
    return met;
}

static bool in_start(const struct try_case *now)
{
    struct kgt_driver driver = try_medium(now->landing);
    bool started, kept, met;

    try_check(start(driver) && keep(before), "a good driver");
    try_cut(now->lands);
    try_arm(now);
    started = start(driver);
    kept = keep(after);
    met = try_disarm();
    try_check(started || !kept, "nothing is kept in a store that has not started");
    try_check(met || kept, "durable");
    if (!kept) {
        kept = start(driver) && keep(after);
        try_check(kept, "it starts again");
    }
    try_judge(now, kept, met, 7, before, after);
    return met;
}

/* Another task's promises forbid the sync: committed, not called durable, and nothing is left open. */
static void check_promised(void)
{
    uint8_t block[KAGUTIN_BLOCK_SIZE];

    try_check(start(try_medium(KGT_LANDS_BLOCKS)) && keep(before), "a good driver");
    try_fill(&store, TRY_FULL);
    try_free(&store);
    try_check(kgt_set_room(&store, KGT_ROOM_BY_MAINTAIN).code == KAGUTIN_DONE, "room by maintain");
    try_check(kgt_reserve(&store, 4, TRY_PLACES - 1).code == KAGUTIN_DONE && !keep(after), "18 is not durable");
    try_check(kgt_read(&store, 0, 7, block).code == KAGUTIN_DONE && memcmp(block, after, sizeof block) == 0, "committed");
    try_check(kgt_begin(&store, 0).code == KAGUTIN_DONE, "and over");
    try_cut(TRY_NONE_LANDS);
    try_check(kgt_read(try_opened(), 0, 7, block).code == KAGUTIN_DONE && memcmp(block, before, sizeof block) == 0, "lost");
}

int main(void)
{
    try_block(before, 1);
    try_block(after, 2);
    try_all(in_keep);
    try_all(in_start);
    check_promised();
    return try_end("kagutin_store");
}
