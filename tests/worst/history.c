/*
 * Random histories, to try whether the logs of logs.c leave a dearer one out: worst_history GROUPS HOMES SEED CALLS makes so many random calls of
 * eight writers on a store, and prints a line for each, as cases.c does.
 */
#include <stdlib.h>

#include "cases.h"

enum { SMALL_STEP = 8 };

static uint64_t seed, writer, home, places;

static uint64_t random_below(uint64_t end)
{
    seed = seed * UINT64_C(6364136223846793005) + UINT64_C(1442695040888963407);
    return (seed >> 33) % end;
}

static void nothing(void)
{
}

#define RUN(name, call)                                                                                                          \
    static uint64_t name(void)                                                                                                   \
    {                                                                                                                            \
        return (call).code;                                                                                                      \
    }

RUN(run_begin, kagutin_begin(LENT_AREAS, LENT_STATE, writer))
RUN(run_reserve, kagutin_reserve(LENT_AREAS, LENT_STATE, writer, places))
RUN(run_abort, kagutin_abort(LENT_AREAS, LENT_STATE, writer))
RUN(run_store, kagutin_store(LENT_AREAS, LENT_STATE, LENT_BLOCK, LENT_BATCH, writer, home))
RUN(run_commit, kagutin_commit(LENT_AREAS, LENT_STATE, LENT_NEWEST, LENT_BATCH, writer))
RUN(run_flush, kagutin_flush(LENT_AREAS, LENT_STATE, LENT_BATCH))
RUN(run_confirm, kagutin_confirm(LENT_AREAS, LENT_STATE))
RUN(run_settle, kagutin_settle(LENT_AREAS, LENT_STATE, LENT_BATCH))
RUN(run_begin_round, kagutin_begin_round(LENT_AREAS, LENT_STATE))
RUN(run_step, kagutin_step_round(LENT_AREAS, LENT_STATE, LENT_BATCH, SMALL_STEP))
RUN(run_trim, kagutin_trim(LENT_AREAS, LENT_STATE, LENT_NEWEST, LENT_BATCH))
RUN(run_read, kagutin_read(LENT_AREAS, LENT_STATE, LENT_NEWEST, LENT_BLOCK, writer, home))
RUN(run_usage, kagutin_usage(LENT_AREAS, LENT_STATE))
RUN(run_fetch, kagutin_fetch(LENT_AREAS, LENT_STATE, LENT_NEWEST, LENT_BLOCKS, writer, home))
RUN(run_revise, kagutin_revise(LENT_AREAS, LENT_STATE, LENT_NEWEST, LENT_BLOCKS, writer, home))
RUN(run_transact, kagutin_transact(LENT_AREAS, LENT_STATE, LENT_NEWEST, LENT_BLOCKS, LENT_BATCH, writer, home))

/* Each as often as its weight says, of 1,000. */
static const struct {
    unsigned weight;
    struct worst_call call;
} calls[] = {
    {70, {"begin", "", nothing, run_begin}},
    {10, {"reserve", "", nothing, run_reserve}},
    {10, {"abort", "", nothing, run_abort}},
    {610, {"store", "", nothing, run_store}},
    {70, {"commit", "", nothing, run_commit}},
    {10, {"flush", "", nothing, run_flush}},
    {10, {"confirm", "", nothing, run_confirm}},
    {3, {"settle", "", nothing, run_settle}},
    {5, {"begin_round", "", nothing, run_begin_round}},
    {12, {"step_round, 8 homes", "", nothing, run_step}},
    {5, {"trim", "", nothing, run_trim}},
    {100, {"read", "", nothing, run_read}},
    {5, {"usage", "", nothing, run_usage}},
    {20, {"fetch, 7 homes", "", nothing, run_fetch}},
    {10, {"revise, 7 homes", "", nothing, run_revise}},
    {50, {"transact, 7 blocks", "", nothing, run_transact}},
};

static const struct worst_log history = {"random history", NULL, COMMITS, 1, 1, SPREAD, 0, 0};

/* Homes of all words, or for a while of one. */
static void draw(uint64_t turn)
{
    uint64_t span = worst.homes - FREE - CHAIN;

    writer = random_below(KAGUTIN_WRITERS);
    home = FREE + random_below(turn / 500 % 2 || span < 64 ? span : 64);
    places = 1 + random_below(30);
}

static const struct worst_call *choose(void)
{
    uint64_t at = random_below(1000);
    size_t i = 0;

    while (at >= calls[i].weight)
        at -= calls[i++].weight;
    return &calls[i].call;
}

int main(int count, char **words)
{
    uint64_t turn, turns;

    if (count != 5)
        return 2;
    worst.groups = strtoul(words[1], NULL, 10);
    worst.homes = strtoul(words[2], NULL, 10);
    worst.batch_size = sizeof worst.batch;
    seed = strtoul(words[3], NULL, 10);
    turns = strtoul(words[4], NULL, 10);
    if (kagutin_format(LENT_AREAS, LENT_BATCH).code || kagutin_open(LENT_AREAS, LENT_STATE, LENT_NEWEST, LENT_BATCH).code)
        return 1;
    for (turn = 0; turn < turns; turn++) {
        draw(turn);
        worst_count(&history, choose(), "valid");
    }
    return 0;
}
