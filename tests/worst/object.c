/*
 * Worst cases of the store object: as host.c, on the logs that a store writes, with a driver that does nothing. A variant says what the
 * driver's medium keeps whole, and who makes room in a full log.
 */
#include <stdlib.h>

#include "cases.h"
#include "kagutin_store.h"
#include "store/kagutin_state_layout.h"

enum { SMALL_STEP = 8 };

static struct kagutin store;
static uint8_t memory[KGT_MEMORY_SIZE(WORST_GROUPS, WORST_HOMES)], scratch[KGT_FORMAT_SIZE(WORST_GROUPS, WORST_HOMES)];
static struct kagutin_places told;

/* What is lent is what lasting memory holds. */
static int load(void *context, enum kgt_area area, size_t at, uint8_t *bytes, size_t size)
{
    (void)context, (void)area, (void)at, (void)bytes, (void)size;
    return 0;
}

static int write_none(void *context, enum kgt_area area, size_t at, const uint8_t *bytes, size_t size)
{
    (void)context, (void)area, (void)at, (void)bytes, (void)size;
    return 0;
}

static int fence(void *context)
{
    (void)context;
    return 0;
}

/* The first words of all groups since the last fence wait. */
static void leave_words_waiting(struct kgt_runner *runner)
{
    runner->log = worst.log;
    runner->state = worst.state;
    runner->headed = worst_number(STATE_FENCED) / PLACES;
}

/* The object with the log that is lent, open. */
static bool lend_object(enum kgt_landing landing, enum kgt_room room)
{
    const struct kgt_driver driver = {NULL, load, write_none, fence, landing};

    if (kgt_init(&store, memory, sizeof memory, worst.groups, worst.homes, driver).code || kgt_set_room(&store, room).code)
        return false;
    store.log = worst.log;
    store.area = worst.area;
    store.state = worst.state;
    store.newest = worst.newest;
    store.batch = worst.batch;
    store.condition = KGT_IS_OPEN;
    leave_words_waiting(&store.runner);
    return true;
}

static void nothing(void)
{
}

static void last_idle(void)
{
    kagutin_abort(LENT_AREAS, LENT_STATE, LAST);
}

static void owner_open(void)
{
    kagutin_begin(LENT_AREAS, LENT_STATE, OWNER);
}

/* The step that counts is the last of its round. */
static void before_the_end(void)
{
    kagutin_begin_round(LENT_AREAS, LENT_STATE);
    kagutin_step_round(LENT_AREAS, LENT_STATE, LENT_BATCH,
                       worst.homes - FREE - CHAIN > SMALL_STEP ? worst.homes - FREE - CHAIN - SMALL_STEP : 1);
}

#define RUN(name, call)                                                                                                          \
    static uint64_t name(void)                                                                                                   \
    {                                                                                                                            \
        return (call).code;                                                                                                      \
    }

RUN(run_format, kgt_format(&store, scratch, sizeof scratch))
RUN(run_open, kgt_open(&store))
RUN(run_begin, kgt_begin(&store, LAST))
RUN(run_reserve, kgt_reserve(&store, LAST, 1))
RUN(run_abort, kgt_abort(&store, OWNER))
RUN(run_store, kgt_store(&store, OWNER, worst_untouched(), worst.blocks))
RUN(run_commit, kgt_commit(&store, OWNER))
RUN(run_commit_sync, kgt_commit_sync(&store, OWNER))
RUN(run_sync, kgt_sync(&store))
RUN(run_read, kgt_read(&store, OWNER, worst_untouched(), worst.blocks))
RUN(run_maintain_some, kgt_maintain(&store, SMALL_STEP))
RUN(run_maintain, kgt_maintain(&store, 0))
RUN(run_usage, kgt_usage(&store, &told))

static const struct worst_call calls[] = {
    {"format", "", nothing, run_format},
    {"open", "", nothing, run_open},
    {"begin", "", last_idle, run_begin},
    {"begin", "with one open", nothing, run_begin},
    {"reserve", "", last_idle, run_reserve},
    {"abort", "", owner_open, run_abort},
    {"store", "", owner_open, run_store},
    {"commit", "", owner_open, run_commit},
    {"commit_sync", "", owner_open, run_commit_sync},
    {"sync", "", nothing, run_sync},
    {"read", "", nothing, run_read},
    {"maintain, 8 homes", "", nothing, run_maintain_some},
    {"maintain, 8 homes", "last step", before_the_end, run_maintain_some},
    {"maintain, no bound", "", nothing, run_maintain},
    {"usage", "", nothing, run_usage},
};

static const struct {
    const char *name;
    enum kgt_landing landing;
    enum kgt_room room;
} media[] = {
    {"blocks", KGT_LANDS_BLOCKS, KGT_ROOM_AT_ONCE},
    {"words", KGT_LANDS_WORDS, KGT_ROOM_AT_ONCE},
    {"blocks, room by maintain", KGT_LANDS_BLOCKS, KGT_ROOM_BY_MAINTAIN},
    {"words, room by maintain", KGT_LANDS_WORDS, KGT_ROOM_BY_MAINTAIN},
};

static bool each_call(const struct worst_log *log, char **cases, bool make)
{
    size_t i, m;

    for (i = 0; !log->damage && i < sizeof calls / sizeof *calls; i++)
        for (m = 0; m < sizeof media / sizeof *media; m++) {
            const struct worst_call *call = &calls[i];

            if (!worst_wanted(log, call, media[m].name, cases))
                continue;
            if (!make)
                return true;
            worst_restore();
            call->prepare();
            if (!lend_object(media[m].landing, media[m].room))
                exit(1);
            worst_count(log, call, media[m].name);
        }
    return false;
}

int main(int count, char **words)
{
    return worst_go(count, words, worst_logs, worst_log_count, each_call);
}
