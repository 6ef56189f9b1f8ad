/* docs/DRIVERS.md: the task that maintains. Its loop ends, and what it calls home is home. */
#include "tries.h"

static struct kagutin store;
static unsigned turns;

static void wait_a_little(void)
{
    try_check(++turns < 1000, "the loop ends");
}

#include "drivers_maintain.snippet"

/* Commits to some homes, so that a round has several steps. */
static void commit_some(void)
{
    uint8_t block[KAGUTIN_BLOCK_SIZE];
    unsigned home;

    for (home = 16; home < 28; home++) {
        try_block(block, home);
        try_check(kgt_begin(&store, 1).code == KAGUTIN_DONE && kgt_store(&store, 1, home, block).code == KAGUTIN_DONE
                      && kgt_commit(&store, 1).code == KAGUTIN_DONE,
                  "a commit");
    }
}

static void check_home(uint64_t home)
{
    uint8_t block[KAGUTIN_BLOCK_SIZE];

    try_check(kgt_read(&store, 0, home, block).code == KAGUTIN_DONE, "read");
    try_check(memcmp(block, try_lasting(home), sizeof block) == 0, "what is called home is in lasting memory");
}

static bool in_turn(const struct try_case *now)
{
    struct kagutin_places places;
    uint64_t home;
    bool made, met;

    try_start(&store, now->landing);
    if (now->log == TRY_ROOMY)
        commit_some();
    try_fill(&store, now->log);
    turns = 0;
    try_arm(now);
    made = make_room();
    met = try_disarm();
    try_check(made == !met, "room is made if nothing fails");
    if (made) {
        try_check(!kgt_maintain(&store, 4).more, "nothing is left to do");
        try_check(kgt_usage(&store, &places).code == KAGUTIN_DONE, "usage");
        try_check(now->log == TRY_HELD_BACK ? places.holder == TRY_HOLDER : places.free == TRY_PLACES, "free, unless it is held");
        try_cut(now->lands);
        for (home = TRY_FILLED; home < 28; home++)
            check_home(home);
    }
    return met;
}

/* No store yet, nothing to do, a sync that promises forbid: the loop ends, and says so. */
static void check_ends(void)
{
    turns = 0;
    memset(&store, 0, sizeof store);
    try_check(!make_room() && turns == 0, "no store yet");
    try_start(&store, KGT_LANDS_BLOCKS);
    try_check(make_room() && turns == 0, "nothing to do");
    try_check(kgt_set_room(&store, KGT_ROOM_BY_MAINTAIN).code == KAGUTIN_DONE, "room by maintain");
    commit_some();
    try_check(kgt_reserve(&store, 4, TRY_PLACES - 12).code == KAGUTIN_DONE && !make_room(), "promised: not all is home");
    try_check(kgt_abort(&store, 4).code == KAGUTIN_DONE && make_room(), "and then it is");
}

int main(void)
{
    try_all(in_turn);
    check_ends();
    return try_end("drivers_maintain");
}
