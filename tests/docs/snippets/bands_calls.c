/* docs/BANDS.md: pumps go by a table that is there, or by the floats. */
#include "tries.h"

#include "kagutin_units.h"

enum { BY_FLOATS = 100 };

static struct kagutin store;
static uint64_t running, complained;

static void run_pumps(uint64_t pumps)
{
    running = pumps;
}

static void run_by_floats(void)
{
    running = BY_FLOATS;
}

static void show_millimetre(uint64_t mm)
{
    complained = mm;
}

#include "bands_calls.snippet"

/* One row for all depths. */
static const uint8_t two[KAGUTIN_BAND_SIZE] = {0, 0, 0x0F, 0x27, 2}, three[KAGUTIN_BAND_SIZE] = {0, 0, 0x0F, 0x27, 3};
static const uint8_t gap[KAGUTIN_BAND_SIZE] = {0, 0, 0x2B, 0x01, 2};

static uint64_t pumps_at(uint64_t mm)
{
    follow_level(mm);
    return running;
}

static bool in_table(const struct try_case *now)
{
    struct kgt_band band;
    bool set, met;

    memset(&store, 0, sizeof store);
    try_check(pumps_at(500) == BY_FLOATS, "before the opening");
    try_start(&store, now->landing);
    try_check(pumps_at(500) == BY_FLOATS, "no table");
    try_check(set_table(two, sizeof two) && pumps_at(500) == 2 && pumps_at(10000) == BY_FLOATS, "a table");
    complained = 0;
    try_check(!set_table(gap, sizeof gap) && complained == 300 && pumps_at(500) == 2, "a gap is told, and the table stays");
    try_fill(&store, now->log);
    complained = 0;
    try_arm(now);
    set = set_table(three, sizeof three);
    follow_level(500);
    met = try_disarm();
    try_check(met || set == (now->log <= TRY_FULL), "durable where there is room, or can be made");
    try_check(running == (set ? 3 : met ? BY_FLOATS : 2) && complained == 0, "pumps by the table, or by the floats");
    if (!set && !met)
        try_free(&store);
    try_cut(now->lands);
    band = kgt_bands_look_up(try_opened(), 1, 500);
    try_check(band.code == KAGUTIN_DONE && (set ? band.pumps == 3 : band.pumps == 2 || (met && band.pumps == 3)),
              "what is called durable is there after a cut");
    return met;
}

int main(void)
{
    try_all(in_table);
    return try_end("bands_calls");
}
