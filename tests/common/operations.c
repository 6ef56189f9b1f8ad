#include "operations.h"

#include <string.h>

const char *const operation_names[OPERATIONS] =
    {"begin",       "reserve",       "store",      "commit",        "commit_sync",
     "abort",       "read",          "sync",       "maintain",      "maintain without a bound",
     "usage",       "set_rights",    "get_rights", "bands_set",     "bands_look_up",
     "pump_start",  "pump_stop",     "pump_hours", "pump_services", "alarm_arrive",
     "alarm_clear", "alarm_gravest", "open"};

static struct outcome plain(struct kgt_reply reply)
{
    struct outcome outcome;

    memset(&outcome, 0, sizeof outcome);
    outcome.code = reply.code;
    outcome.holder = reply.holder;
    outcome.error = reply.error;
    return outcome;
}

static struct outcome simple(uint64_t code, int error)
{
    struct kgt_reply reply;

    reply.code = code;
    reply.holder = KGT_NO_HOLDER;
    reply.error = error;
    return plain(reply);
}

static struct outcome ticket(struct kgt_ticket reply)
{
    struct outcome outcome = simple(reply.code, reply.error);

    outcome.holder = reply.holder;
    outcome.has_ticket = true;
    outcome.ticket = reply.ticket;
    return outcome;
}

static struct outcome numbers(uint64_t code, int error, uint64_t first, uint64_t second, uint64_t third)
{
    struct outcome outcome = simple(code, error);

    outcome.has_numbers = true;
    outcome.numbers[0] = first;
    outcome.numbers[1] = second;
    outcome.numbers[2] = third;
    return outcome;
}

static struct outcome sync(struct kgt_mark reply)
{
    struct outcome outcome = simple(reply.code, reply.error);

    outcome.has_mark = true;
    outcome.mark = reply.mark;
    return outcome;
}

static struct outcome maintain(struct kgt_progress reply)
{
    struct outcome outcome = simple(reply.code, reply.error);

    outcome.has_more = true;
    outcome.more = reply.more;
    return outcome;
}

static struct outcome usage(struct kagutin *store)
{
    struct kagutin_places places;
    struct outcome outcome = plain(kgt_usage(store, &places));

    if (places.code != outcome.code || (outcome.code && places.holder != KGT_NO_HOLDER))
        outcome.code = UINT64_MAX;
    return outcome;
}

static struct outcome set_bands(struct kagutin *store)
{
    static const uint8_t rows[KAGUTIN_BAND_SIZE] = {0, 0, 0x0F, 0x27, 2};
    struct kgt_table reply = kgt_bands_set(store, OP_IDLE_WRITER, rows, sizeof rows);
    struct outcome outcome = simple(reply.code, reply.error);

    outcome.holder = reply.holder;
    outcome.has_ticket = true;
    outcome.ticket = reply.ticket;
    if (reply.mm != KGT_NOT_TOLD)
        outcome.code = UINT64_MAX;
    return outcome;
}

static struct outcome look_up(struct kgt_band reply)
{
    return numbers(reply.code, reply.error, reply.from, reply.to, reply.pumps);
}

static struct outcome hours(struct kgt_hours reply)
{
    return numbers(reply.code, reply.error, reply.starts, reply.seconds, reply.seconds);
}

static struct outcome services(struct kgt_services reply)
{
    return numbers(reply.code, reply.error, reply.due, reply.left, reply.left);
}

static struct outcome gravest(struct kgt_alarm reply)
{
    struct outcome outcome = numbers(reply.code, reply.error, reply.identity, reply.alarm_class, reply.second);

    outcome.has_numbers = reply.code != KAGUTIN_DONE;
    outcome.shown = reply.shown;
    return outcome;
}

static struct outcome rights(struct kagutin *store, bool set)
{
    struct kgt_rights list;

    kgt_rights_clear(&list);
    return set ? ticket(kgt_set_rights(store, &list)) : plain(kgt_get_rights(store, OP_IDLE_WRITER, &list));
}

static struct outcome opened(struct kgt_opened reply)
{
    return numbers(reply.code, reply.error, reply.commits, reply.commits, reply.commits);
}

static struct outcome transaction(struct kagutin *store, enum operation operation)
{
    uint8_t block[KAGUTIN_BLOCK_SIZE] = {1};

    switch (operation) {
    case OP_BEGIN: return plain(kgt_begin(store, OP_IDLE_WRITER));
    case OP_RESERVE: return plain(kgt_reserve(store, OP_IDLE_WRITER, 6));
    case OP_STORE: return plain(kgt_store(store, OP_WRITER, 2, block));
    case OP_COMMIT: return ticket(kgt_commit(store, OP_WRITER));
    case OP_COMMIT_SYNC: return ticket(kgt_commit_sync(store, OP_WRITER));
    case OP_ABORT: return plain(kgt_abort(store, OP_WRITER));
    default: return plain(kgt_read(store, OP_IDLE_WRITER, 1, block));
    }
}

static struct outcome unit(struct kagutin *store, enum operation operation)
{
    switch (operation) {
    case OP_BANDS_SET: return set_bands(store);
    case OP_BANDS_LOOK_UP: return look_up(kgt_bands_look_up(store, OP_IDLE_WRITER, 500));
    case OP_PUMP_START: return ticket(kgt_pump_start(store, OP_IDLE_WRITER, 1, 100));
    case OP_PUMP_STOP: return ticket(kgt_pump_stop(store, OP_IDLE_WRITER, 0, 100));
    case OP_PUMP_HOURS: return hours(kgt_pump_hours(store, OP_IDLE_WRITER, 0));
    case OP_PUMP_SERVICES: return services(kgt_pump_services(store, OP_IDLE_WRITER, 0, 10));
    case OP_ALARM_ARRIVE: return ticket(kgt_alarm_arrive(store, OP_IDLE_WRITER, 9, 3, 100));
    case OP_ALARM_CLEAR: return ticket(kgt_alarm_clear(store, OP_IDLE_WRITER, 8));
    default: return gravest(kgt_alarm_gravest(store, OP_IDLE_WRITER));
    }
}

struct outcome operate(struct kagutin *store, enum operation operation)
{
    switch (operation) {
    case OP_SYNC: return sync(kgt_sync(store));
    case OP_MAINTAIN: return maintain(kgt_maintain(store, 2));
    case OP_MAINTAIN_ALL: return maintain(kgt_maintain(store, 0));
    case OP_USAGE: return usage(store);
    case OP_SET_RIGHTS: return rights(store, true);
    case OP_GET_RIGHTS: return rights(store, false);
    case OP_OPEN: return opened(kgt_open(store));
    default: return operation < OP_SYNC ? transaction(store, operation) : unit(store, operation);
    }
}

const char *misleads(const struct outcome *outcome)
{
    bool full = outcome->code == KAGUTIN_FULL || outcome->code == KAGUTIN_NO_PLACES;
    size_t i;

    if ((outcome->error != 0) != (outcome->code == KGT_DRIVER_FAILED))
        return "the driver's error stands with answer 65 alone";
    if (outcome->holder != KGT_NO_HOLDER && !full)
        return "a holder is told with a full log alone";
    if (outcome->code == KAGUTIN_DONE)
        return NULL;
    if (outcome->has_ticket && outcome->ticket != KGT_NOT_TOLD && outcome->code != KAGUTIN_PROMISED)
        return "a ticket without a commit";
    if (outcome->has_mark && outcome->mark != 0)
        return "a mark without a sync";
    if (outcome->has_more && outcome->more)
        return "more to do for ever";
    for (i = 0; i < 3 && outcome->has_numbers; i++)
        if (outcome->numbers[i] != KGT_NOT_TOLD)
            return "a number that was not told";
    return outcome->shown != KGT_ALARM_NOT_TOLD ? "an alarm, or none, that was not told" : NULL;
}
