/* docs/USING.md: the bare calls, with run and load on a driver. */
#include "tries.h"

static bool run(const uint8_t *records, uint64_t size);
static bool load(uint8_t *log_bytes, uint8_t *home_bytes);

#include "using_bare.snippet"

static struct kgt_runner runner;
static bool run_failed;

static void run_on(struct kgt_driver medium)
{
    kgt_runner_init(&runner, medium, log_area, state, TRY_GROUPS, TRY_HOMES);
}

static bool run(const uint8_t *records, uint64_t size)
{
    try_check(!run_failed, "nothing is run after a run that failed");
    run_failed = kgt_run(&runner, records, size & SIZE_MAX) != 0;
    return !run_failed;
}

static bool load(uint8_t *log_bytes, uint8_t *home_bytes)
{
    const struct kgt_driver *medium = &runner.driver;

    run_failed = medium->load(medium->context, KGT_LOG, 0, log_bytes, KGT_LOG_SIZE(TRY_GROUPS)) != 0
        || medium->load(medium->context, KGT_HOMES, 0, home_bytes, KGT_HOMES_SIZE(TRY_HOMES)) != 0;
    run_on(runner.driver);
    return !run_failed;
}

static uint8_t before[KAGUTIN_BLOCK_SIZE], after[KAGUTIN_BLOCK_SIZE];

/* Fills the log by commits of one block; with a holder in its first group. */
static void fill_log(enum try_log now)
{
    uint8_t block[KAGUTIN_BLOCK_SIZE] = {1};
    uint64_t left;

    if (now == TRY_HELD_BACK)
        try_check(kagutin_begin(AREAS, STATE, TRY_HOLDER).code == 0
                      && done(kagutin_store(AREAS, STATE, block, sizeof block, BATCH, TRY_HOLDER, TRY_HELD))
                      && done(kagutin_store(AREAS, STATE, block, sizeof block, BATCH, TRY_HOLDER, TRY_HELD + 1)),
                  "a holder");
    for (left = now == TRY_ROOMY ? 0 : kagutin_usage(AREAS, STATE).free; left > 0; left--)
        try_check(kagutin_begin(AREAS, STATE, TRY_FILLER).code == 0
                      && done(kagutin_store(AREAS, STATE, block, sizeof block, BATCH, TRY_FILLER, TRY_FILLED))
                      && done(kagutin_commit(AREAS, STATE, NEWEST, BATCH, TRY_FILLER)),
                  "a commit");
}

static void make_room(void)
{
    kagutin_abort(AREAS, STATE, TRY_HOLDER);
    try_check(done(kagutin_flush(AREAS, STATE, BATCH)) && done(kagutin_settle(AREAS, STATE, BATCH))
                  && done(kagutin_trim(AREAS, STATE, NEWEST, BATCH)),
              "flush, settle and trim");
}

static bool in_keep(const struct try_case *now)
{
    bool kept, met;

    run_on(try_medium(now->landing));
    try_check(start() && keep(before), "a good driver");
    fill_log(now->log);
    try_arm(now);
    kept = keep(after);
    met = try_disarm();
    try_check(met || kept == (now->log == TRY_ROOMY), "durable where there is room");
    if (!kept && !met) {
        make_room();
        try_check(keep(before), "and later it can be kept");
    }
    try_judge(now, kept, met, 7, before, after);
    return met;
}

/* The medium holds another store before it: a format that is not done leaves no mixture that opens. */
static bool in_format(const struct try_case *now)
{
    bool formatted, kept, met;

    run_on(try_medium(now->landing));
    try_check(start() && keep(before), "a good driver");
    run_on(runner.driver);
    try_arm(now);
    formatted = format();
    kept = formatted && start() && keep(after);
    met = try_disarm();
    try_check(met || kept, "formatted, started and durable");
    if (!formatted) {
        try_cut(now->lands);
        run_failed = false;
        run_on(runner.driver);
        kept = format() && start() && keep(after);
        try_check(kept, "a format is done anew");
    }
    if (kept)
        try_judge(now, kept, met, 7, before, after);
    return met;
}

static bool in_start(const struct try_case *now)
{
    bool kept, met;

    run_on(try_medium(now->landing));
    try_check(start() && keep(before), "a good driver");
    try_cut(now->lands);
    try_arm(now);
    kept = start() && keep(after);
    met = try_disarm();
    try_check(met || kept, "durable");
    try_judge(now, kept, met, 7, before, after);
    return met;
}

int main(void)
{
    try_block(before, 1);
    try_block(after, 2);
    try_all(in_keep);
    try_all(in_format);
    try_all(in_start);
    return try_end("using_bare");
}
