/* Room in a full log, at once or in the background. */
#include "kagutin_store_inner.h"

static uint64_t start_of(const struct kagutin *store)
{
    return kgt_inner_number(store->state, STATE_START);
}

static bool in_round(const struct kagutin *store)
{
    return kgt_inner_number(store->state, STATE_ROUND) != 0;
}

static bool is_settled(const struct kagutin *store)
{
    return kgt_inner_number(store->state, STATE_SETTLED) == kgt_inner_number(store->state, STATE_FENCED);
}

static struct kagutin_reply flush(struct kagutin *store)
{
    return kgt_inner_run(store, kagutin_flush(KGT_AREAS(store), KGT_STATE(store), KGT_BATCH(store)));
}

static struct kagutin_reply trim(struct kagutin *store)
{
    return kgt_inner_run(store, kagutin_trim(KGT_AREAS(store), KGT_STATE(store), KGT_NEWEST(store), KGT_BATCH(store)));
}

static struct kagutin_reply step_round(struct kagutin *store, uint64_t homes)
{
    return kgt_inner_run(store, kagutin_step_round(KGT_AREAS(store), KGT_STATE(store), KGT_BATCH(store), homes));
}

/* Settles what a round under way covers, or else all that is fenced. */
static struct kagutin_reply settle(struct kagutin *store)
{
    if (in_round(store))
        return step_round(store, UINT64_MAX);
    return kgt_inner_run(store, kagutin_settle(KGT_AREAS(store), KGT_STATE(store), KGT_BATCH(store)));
}

static struct kagutin_reply settle_and_trim(struct kagutin *store)
{
    struct kagutin_reply reply = settle(store);

    return reply.code == KAGUTIN_DONE ? trim(store) : reply;
}

/* ---- at once ---- */

/* Fences the log: where promises forbid a flush a settle does, without the part-filled group. */
static struct kagutin_reply fence_log(struct kagutin *store)
{
    struct kagutin_reply reply = flush(store);

    return reply.code == KAGUTIN_PROMISED ? settle(store) : reply;
}

/* Fence, settle, trim. The end of a round may free nothing; then what is fenced since is settled too. */
static struct kagutin_reply free_groups(struct kagutin *store, uint64_t start)
{
    struct kagutin_reply reply = fence_log(store);

    if (reply.code == KAGUTIN_DONE)
        reply = settle_and_trim(store);
    if (reply.code == KAGUTIN_DONE && start_of(store) == start && !is_settled(store))
        reply = settle_and_trim(store);
    return reply;
}

bool kgt_inner_make_room(struct kagutin *store, struct kagutin_reply *reply)
{
    uint64_t first, start = start_of(store);
    struct kagutin_reply done;

    if (store->room == KGT_ROOM_BY_MAINTAIN)
        return false;
    if (kgt_inner_holder(store->state, &first) != KGT_NO_HOLDER && first / KAGUTIN_GROUP_ENTRIES == start)
        return false;
    done = free_groups(store, start);
    if (done.code != KAGUTIN_DONE)
        *reply = done;
    return done.code == KAGUTIN_DONE && start_of(store) != start;
}

/* ---- durability ---- */

struct kagutin_reply kgt_inner_sync(struct kagutin *store)
{
    struct kagutin_reply reply = flush(store);

    if (reply.code == KAGUTIN_PROMISED && kgt_inner_make_room(store, &reply))
        reply = flush(store);
    if (reply.code == KAGUTIN_DONE)
        reply = kagutin_confirm(KGT_AREAS(store), KGT_STATE(store));
    return reply;
}

/* ---- in the background ---- */

/* One step of the round under way, or of a new one if something is to be settled; a trim when it is over. */
static struct kagutin_reply settle_some(struct kagutin *store, uint64_t most)
{
    struct kagutin_reply reply = kgt_inner_answer(KAGUTIN_DONE);

    if (!in_round(store) && !is_settled(store))
        reply = kagutin_begin_round(KGT_AREAS(store), KGT_STATE(store));
    if (reply.code == KAGUTIN_DONE && in_round(store))
        reply = step_round(store, most);
    if (reply.code == KAGUTIN_DONE && !in_round(store))
        reply = trim(store);
    return reply;
}

/* All that is fenced now, also behind a round under way; then a trim. */
static struct kagutin_reply settle_all(struct kagutin *store)
{
    struct kagutin_reply reply = kgt_inner_answer(KAGUTIN_DONE);

    if (in_round(store))
        reply = settle(store);
    return reply.code == KAGUTIN_DONE ? settle_and_trim(store) : reply;
}

struct kgt_progress kgt_maintain(struct kagutin *store, uint64_t most)
{
    struct kgt_reply reply = kgt_inner_enter(store);
    struct kgt_progress progress;
    struct kagutin_reply done;

    progress.more = false;
    if (reply.code == KAGUTIN_DONE) {
        done = most ? settle_some(store, most) : settle_all(store);
        progress.more = done.code == KAGUTIN_DONE && (in_round(store) || !is_settled(store));
        reply = kgt_inner_leave(store, done);
    }
    progress.code = reply.code;
    progress.error = reply.error;
    return progress;
}
