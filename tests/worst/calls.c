/* The calls, each with what makes it dear. */
#include "logs.h"
#include "store/kagutin_state_layout.h"

enum { SMALL_STEP = 8 };

static void nothing(void)
{
}

static void last_idle(void)
{
    kagutin_abort(LENT_AREAS, LENT_STATE, LAST);
}

static void owner_open(void)
{
    kagutin_begin(LENT_AREAS, LENT_STATE, OWNER);
}

static void in_round(void)
{
    kagutin_begin_round(LENT_AREAS, LENT_STATE);
}

static void in_second_step(void)
{
    in_round();
    kagutin_step_round(LENT_AREAS, LENT_STATE, LENT_BATCH, SMALL_STEP);
}

/* The batch has just the room that the call needs, so that the homes are counted first. */
static void tight(struct kagutin_reply reply)
{
    worst_restore();
    if (reply.code == KAGUTIN_DONE)
        worst.batch_size = (size_t)reply.size;
}

static void settle_tight(void)
{
    tight(kagutin_settle(LENT_AREAS, LENT_STATE, LENT_BATCH));
}

static void open_tight(void)
{
    tight(kagutin_open(LENT_AREAS, LENT_STATE, LENT_NEWEST, LENT_BATCH));
}

static void step_tight(void)
{
    in_round();
    tight(kagutin_step_round(LENT_AREAS, LENT_STATE, LENT_BATCH, UINT64_MAX));
    in_round();
}

/* A fence with the first words of all groups since the last one before it. */
static void fence_batch(void)
{
    worst.batch[0] = 'F';
    worst.batch[1] = 'N';
}

static uint64_t run_next_action(void)
{
    return kagutin_next_action(worst.batch, KAGUTIN_FN_SIZE, 0, worst.groups, worst.homes, worst_number(STATE_NEXT), 0,
                               worst_number(STATE_FENCED) / PLACES, 1)
        .kind;
}

#define RUN(name, call)                                                                                                          \
    static uint64_t name(void)                                                                                                   \
    {                                                                                                                            \
        return (call).code;                                                                                                      \
    }

RUN(run_format, kagutin_format(LENT_AREAS, LENT_BATCH))
RUN(run_open, kagutin_open(LENT_AREAS, LENT_STATE, LENT_NEWEST, LENT_BATCH))
RUN(run_begin, kagutin_begin(LENT_AREAS, LENT_STATE, LAST))
RUN(run_reserve, kagutin_reserve(LENT_AREAS, LENT_STATE, LAST, 1))
RUN(run_abort, kagutin_abort(LENT_AREAS, LENT_STATE, OWNER))
RUN(run_store, kagutin_store(LENT_AREAS, LENT_STATE, LENT_BLOCK, LENT_BATCH, OWNER, worst_untouched()))
RUN(run_commit, kagutin_commit(LENT_AREAS, LENT_STATE, LENT_NEWEST, LENT_BATCH, OWNER))
RUN(run_flush, kagutin_flush(LENT_AREAS, LENT_STATE, LENT_BATCH))
RUN(run_confirm, kagutin_confirm(LENT_AREAS, LENT_STATE))
RUN(run_settle, kagutin_settle(LENT_AREAS, LENT_STATE, LENT_BATCH))
RUN(run_begin_round, kagutin_begin_round(LENT_AREAS, LENT_STATE))
RUN(run_step, kagutin_step_round(LENT_AREAS, LENT_STATE, LENT_BATCH, SMALL_STEP))
RUN(run_step_all, kagutin_step_round(LENT_AREAS, LENT_STATE, LENT_BATCH, UINT64_MAX))
RUN(run_trim, kagutin_trim(LENT_AREAS, LENT_STATE, LENT_NEWEST, LENT_BATCH))
RUN(run_read, kagutin_read(LENT_AREAS, LENT_STATE, LENT_NEWEST, LENT_BLOCK, OWNER, worst_untouched()))
RUN(run_read_kept, kagutin_read(LENT_AREAS, LENT_STATE, LENT_NEWEST, LENT_BLOCK, LAST, FREE))
RUN(run_usage, kagutin_usage(LENT_AREAS, LENT_STATE))
RUN(run_fetch, kagutin_fetch(LENT_AREAS, LENT_STATE, LENT_NEWEST, LENT_BLOCKS, OWNER, worst_untouched()))
RUN(run_revise, kagutin_revise(LENT_AREAS, LENT_STATE, LENT_NEWEST, LENT_BLOCKS, OWNER, worst_untouched()))
RUN(run_transact, kagutin_transact(LENT_AREAS, LENT_STATE, LENT_NEWEST, LENT_BLOCKS, LENT_BATCH, LAST, worst_untouched()))

const struct worst_call worst_calls[] = {
    {"format", "", nothing, run_format},
    {"open", "", nothing, run_open},
    {"open", "batch just large enough", open_tight, run_open},
    {"begin", "", last_idle, run_begin},
    {"begin", "with one open", nothing, run_begin},
    {"reserve", "", last_idle, run_reserve},
    {"reserve", "with one open", nothing, run_reserve},
    {"abort", "", owner_open, run_abort},
    {"store", "", owner_open, run_store},
    {"commit", "", owner_open, run_commit},
    {"flush", "", nothing, run_flush},
    {"confirm", "", nothing, run_confirm},
    {"settle", "", nothing, run_settle},
    {"settle", "batch just large enough", settle_tight, run_settle},
    {"begin_round", "", nothing, run_begin_round},
    {"step_round, 8 homes", "", in_round, run_step},
    {"step_round, 8 homes", "the second", in_second_step, run_step},
    {"step_round, all homes", "", in_round, run_step_all},
    {"step_round, all homes", "batch just large enough", step_tight, run_step_all},
    {"trim", "", nothing, run_trim},
    {"read", "of the owner", nothing, run_read},
    {"read", "of another writer", nothing, run_read_kept},
    {"usage", "", nothing, run_usage},
    {"fetch, 7 homes", "", nothing, run_fetch},
    {"revise, 7 homes", "", nothing, run_revise},
    {"next_action", "", fence_batch, run_next_action},
    {"transact, 7 blocks", "", last_idle, run_transact},
    {"transact, 7 blocks", "with one open", nothing, run_transact},
};
const size_t worst_call_count = sizeof worst_calls / sizeof *worst_calls;
