/* The store object: every call takes the lock once, calls the library and runs its batch. */
#include <string.h>

#include "kagutin_rights.h"
#include "kagutin_store_inner.h"

const char *kgt_answer_text(uint64_t code)
{
    switch (code) {
    case KGT_CLOSED: return "the store is not open";
    case KGT_DRIVER_FAILED: return "the driver has failed; open the store again";
    case KGT_LOCK_FAILED: return "the lock was not given";
    case KGT_NOT_INIT: return "kgt_init was not called, or was refused";
    case KGT_LIST_GUARDED: return "homes 8 to 11 are stored by kgt_set_rights";
    default: return kagutin_answer_text(code);
    }
}

const char *kagutin_version(void)
{
    return KAGUTIN_VERSION;
}

static struct kgt_reply answer(uint64_t code)
{
    struct kgt_reply reply;

    reply.code = code;
    reply.holder = KGT_NO_HOLDER;
    reply.error = 0;
    return reply;
}

struct kagutin_reply kgt_inner_answer(uint64_t code)
{
    struct kagutin_reply reply;

    reply.code = code;
    reply.figure = 0;
    reply.size = 0;
    return reply;
}

/* ---- before the tasks start ---- */

struct kgt_reply kgt_init(struct kagutin *store, uint8_t *memory, size_t size, size_t groups, size_t homes,
                          struct kgt_driver driver)
{
    memset(store, 0, sizeof *store);
    store->condition = KGT_IS_UNUSABLE;
    if (groups < KAGUTIN_MIN_GROUPS || groups > KAGUTIN_MAX_GROUPS || homes < KAGUTIN_MIN_HOMES || homes > KAGUTIN_MAX_HOMES
        || size < KGT_MEMORY_SIZE(groups, homes))
        return answer(KAGUTIN_BAD_LENGTH);
    if (!memory || !driver.load || !driver.write || !driver.fence)
        return answer(KAGUTIN_BAD_LENGTH);
    store->log_size = KGT_LOG_SIZE(groups);
    store->area_size = KGT_HOMES_SIZE(homes);
    store->newest_size = KGT_NEWEST_SIZE(homes);
    store->batch_size = KGT_BATCH_SIZE(groups, homes);
    store->log = memory;
    store->area = store->log + store->log_size;
    store->state = store->area + store->area_size;
    store->newest = store->state + KAGUTIN_STATE_SIZE;
    store->batch = store->newest + store->newest_size;
    kgt_runner_init(&store->runner, driver, store->log, store->state, groups, homes);
    store->condition = KGT_IS_CLOSED;
    return answer(KAGUTIN_DONE);
}

struct kgt_reply kgt_set_lock(struct kagutin *store, int (*lock)(void *context), void (*unlock)(void *context), void *context)
{
    if (store->condition == KGT_IS_UNUSABLE)
        return answer(KGT_NOT_INIT);
    if (!lock != !unlock)
        return answer(KAGUTIN_BAD_LENGTH);
    store->lock = lock;
    store->unlock = unlock;
    store->lock_context = context;
    return answer(KAGUTIN_DONE);
}

struct kgt_reply kgt_set_room(struct kagutin *store, enum kgt_room room)
{
    if (store->condition == KGT_IS_UNUSABLE)
        return answer(KGT_NOT_INIT);
    store->room = room;
    return answer(KAGUTIN_DONE);
}

struct kgt_reply kgt_allow_list_stores(struct kagutin *store)
{
    if (store->condition == KGT_IS_UNUSABLE)
        return answer(KGT_NOT_INIT);
    store->list_stores = true;
    return answer(KAGUTIN_DONE);
}

/* ---- around every call ---- */

/* Takes the lock of a store that kgt_init has made. */
static struct kgt_reply take_lock(struct kagutin *store)
{
    if (store->condition == KGT_IS_UNUSABLE)
        return answer(KGT_NOT_INIT);
    if (store->lock && store->lock(store->lock_context) != 0)
        return answer(KGT_LOCK_FAILED);
    return answer(KAGUTIN_DONE);
}

struct kgt_reply kgt_inner_leave(struct kagutin *store, struct kagutin_reply reply)
{
    struct kgt_reply told = answer(reply.code);
    uint64_t first;

    if (reply.code == KAGUTIN_FULL || reply.code == KAGUTIN_NO_PLACES)
        told.holder = kgt_inner_holder(store->state, &first);
    if (reply.code == KGT_DRIVER_FAILED)
        told.error = store->error;
    if (store->unlock)
        store->unlock(store->lock_context);
    return told;
}

struct kgt_reply kgt_inner_enter(struct kagutin *store)
{
    struct kgt_reply reply = take_lock(store);

    if (reply.code != KAGUTIN_DONE || store->condition == KGT_IS_OPEN)
        return reply;
    return kgt_inner_leave(store, kgt_inner_answer(store->condition == KGT_HAS_FAILED ? KGT_DRIVER_FAILED : KGT_CLOSED));
}

struct kgt_ticket kgt_inner_ticket(struct kgt_reply reply, uint64_t figure)
{
    struct kgt_ticket told;

    told.code = reply.code;
    told.ticket = reply.code == KAGUTIN_DONE ? figure : KGT_NOT_TOLD;
    told.holder = reply.holder;
    told.error = reply.error;
    return told;
}

static struct kagutin_reply fail(struct kagutin *store, int error)
{
    store->error = error;
    store->condition = KGT_HAS_FAILED;
    return kgt_inner_answer(KGT_DRIVER_FAILED);
}

static struct kagutin_reply run(struct kagutin *store, const uint8_t *batch, struct kagutin_reply reply)
{
    int error;

    if (reply.code != KAGUTIN_DONE)
        return reply;
    error = kgt_run(&store->runner, batch, (size_t)reply.size);
    return error ? fail(store, error) : reply;
}

struct kagutin_reply kgt_inner_run(struct kagutin *store, struct kagutin_reply reply)
{
    return run(store, store->batch, reply);
}

/* ---- format and open ---- */

/*
 * Runs the batch of a format, which has made new copies already; the state of the
 * store before ends with it. After a failure no earlier write may arrive any more:
 * load sees to that.
 */
static struct kagutin_reply run_format(struct kagutin *store, const uint8_t *batch, struct kagutin_reply format)
{
    const struct kgt_driver *driver = &store->runner.driver;
    uint8_t header[KAGUTIN_HEADER_SIZE];
    int error = 0;

    if (store->condition == KGT_HAS_FAILED)
        error = driver->load(driver->context, KGT_LOG, 0, header, sizeof header);
    if (error)
        return fail(store, error);
    store->condition = KGT_IS_CLOSED;
    store->runner.headed = KGT_NONE_WAITS;
    memset(store->state, 0, KAGUTIN_STATE_SIZE);
    return run(store, batch, format);
}

struct kgt_reply kgt_format(struct kagutin *store, uint8_t *scratch, size_t size)
{
    struct kgt_reply reply = take_lock(store);
    struct kagutin_reply format;

    if (reply.code != KAGUTIN_DONE)
        return reply;
    format = kagutin_format(KGT_AREAS(store), scratch, size);
    if (format.code == KAGUTIN_DONE)
        format = run_format(store, scratch, format);
    return kgt_inner_leave(store, format);
}

/* Loads both areas and opens; the store is open if that is done. */
static struct kagutin_reply load_and_open(struct kagutin *store)
{
    const struct kgt_driver *driver = &store->runner.driver;
    struct kagutin_reply reply;
    int error;

    store->condition = KGT_IS_CLOSED;
    store->runner.headed = KGT_NONE_WAITS;
    error = driver->load(driver->context, KGT_LOG, 0, store->log, store->log_size);
    if (!error)
        error = driver->load(driver->context, KGT_HOMES, 0, store->area, store->area_size);
    if (error)
        return fail(store, error);
    reply = kgt_inner_run(store, kagutin_open(KGT_MEMORY(store), KGT_BATCH(store)));
    if (reply.code == KAGUTIN_DONE)
        store->condition = KGT_IS_OPEN;
    return reply;
}

struct kgt_opened kgt_open(struct kagutin *store)
{
    struct kgt_reply reply = take_lock(store);
    struct kgt_opened opened;
    struct kagutin_reply open;

    opened.commits = KGT_NOT_TOLD;
    if (reply.code == KAGUTIN_DONE) {
        open = load_and_open(store);
        if (open.code == KAGUTIN_DONE)
            opened.commits = open.figure;
        reply = kgt_inner_leave(store, open);
    }
    opened.code = reply.code;
    opened.error = reply.error;
    return opened;
}

/* ---- transactions ---- */

struct kgt_reply kgt_begin(struct kagutin *store, uint64_t writer)
{
    struct kgt_reply reply = kgt_inner_enter(store);

    if (reply.code != KAGUTIN_DONE)
        return reply;
    return kgt_inner_leave(store, kagutin_begin(KGT_AREAS(store), KGT_STATE(store), writer));
}

struct kgt_reply kgt_reserve(struct kagutin *store, uint64_t writer, uint64_t places)
{
    struct kgt_reply reply = kgt_inner_enter(store);
    struct kagutin_reply reserve;
    bool possible;

    if (reply.code != KAGUTIN_DONE)
        return reply;
    possible = places > 0 && places <= (uint64_t)KAGUTIN_GROUP_ENTRIES * store->runner.groups;
    reserve = kagutin_reserve(KGT_AREAS(store), KGT_STATE(store), writer, places);
    if (reserve.code == KAGUTIN_NO_PLACES && possible && kgt_inner_make_room(store, &reserve))
        reserve = kagutin_reserve(KGT_AREAS(store), KGT_STATE(store), writer, places);
    return kgt_inner_leave(store, reserve);
}

struct kgt_reply kgt_abort(struct kagutin *store, uint64_t writer)
{
    struct kgt_reply reply = kgt_inner_enter(store);

    if (reply.code != KAGUTIN_DONE)
        return reply;
    return kgt_inner_leave(store, kagutin_abort(KGT_AREAS(store), KGT_STATE(store), writer));
}

static struct kagutin_reply store_once(struct kagutin *store, uint64_t writer, uint64_t home, const uint8_t *block)
{
    return kgt_inner_run(store,
                         kagutin_store(KGT_AREAS(store), KGT_STATE(store), block, KAGUTIN_BLOCK_SIZE, KGT_BATCH(store), writer,
                                       home));
}

/* Would this store become a list of rights, or a part of one, unasked? */
static bool guarded(const struct kagutin *store, uint64_t writer, uint64_t home)
{
    return writer == 0 && home >= KGT_RIGHTS_HOME && home < KGT_RIGHTS_HOME + KGT_RIGHTS_HOMES && !store->list_stores
        && store->runner.homes >= KGT_RIGHTS_HOME + KGT_RIGHTS_HOMES;
}

struct kgt_reply kgt_store(struct kagutin *store, uint64_t writer, uint64_t home, const uint8_t *block)
{
    struct kgt_reply reply = kgt_inner_enter(store);
    struct kagutin_reply stored;

    if (reply.code != KAGUTIN_DONE)
        return reply;
    if (guarded(store, writer, home))
        return kgt_inner_leave(store, kgt_inner_answer(KGT_LIST_GUARDED));
    stored = store_once(store, writer, home, block);
    if (stored.code == KAGUTIN_FULL && kgt_inner_make_room(store, &stored))
        stored = store_once(store, writer, home, block);
    return kgt_inner_leave(store, stored);
}

static struct kagutin_reply commit_once(struct kagutin *store, uint64_t writer)
{
    return kgt_inner_run(store, kagutin_commit(KGT_MEMORY(store), KGT_BATCH(store), writer));
}

static struct kagutin_reply commit(struct kagutin *store, uint64_t writer)
{
    struct kagutin_reply reply = commit_once(store, writer);

    if (reply.code == KAGUTIN_FULL && kgt_inner_make_room(store, &reply))
        reply = commit_once(store, writer);
    return reply;
}

struct kgt_ticket kgt_commit(struct kagutin *store, uint64_t writer)
{
    struct kgt_reply reply = kgt_inner_enter(store);
    struct kagutin_reply made;

    if (reply.code != KAGUTIN_DONE)
        return kgt_inner_ticket(reply, 0);
    made = commit(store, writer);
    return kgt_inner_ticket(kgt_inner_leave(store, made), made.figure);
}

struct kgt_reply kgt_read(struct kagutin *store, uint64_t writer, uint64_t home, uint8_t *block)
{
    struct kgt_reply reply = kgt_inner_enter(store);

    if (reply.code != KAGUTIN_DONE)
        return reply;
    return kgt_inner_leave(store, kagutin_read(KGT_MEMORY(store), block, KAGUTIN_BLOCK_SIZE, writer, home));
}

/* ---- durability ---- */

struct kgt_mark kgt_sync(struct kagutin *store)
{
    struct kgt_reply reply = kgt_inner_enter(store);
    struct kagutin_reply confirm;
    struct kgt_mark mark;

    mark.mark = 0;
    if (reply.code == KAGUTIN_DONE) {
        confirm = kgt_inner_sync(store);
        if (confirm.code == KAGUTIN_DONE)
            mark.mark = confirm.figure;
        reply = kgt_inner_leave(store, confirm);
    }
    mark.code = reply.code;
    mark.error = reply.error;
    return mark;
}

/* The commit itself cannot be refused where only its sync is: 18 keeps its ticket. */
struct kgt_ticket kgt_commit_sync(struct kagutin *store, uint64_t writer)
{
    struct kgt_reply reply = kgt_inner_enter(store);
    struct kagutin_reply made, confirm;
    struct kgt_ticket ticket;

    if (reply.code != KAGUTIN_DONE)
        return kgt_inner_ticket(reply, 0);
    made = commit(store, writer);
    confirm = made.code == KAGUTIN_DONE ? kgt_inner_sync(store) : made;
    ticket = kgt_inner_ticket(kgt_inner_leave(store, confirm), made.figure);
    if (made.code == KAGUTIN_DONE && confirm.code != KGT_DRIVER_FAILED)
        ticket.ticket = made.figure;
    return ticket;
}
