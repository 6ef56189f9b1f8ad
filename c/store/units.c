/* Depth bands, pump hours and alarms on the store object. */
#include "kagutin_store_inner.h"
#include "kagutin_units.h"

/* ---- events ---- */

enum event_kind { SET_BANDS, PUMP_STARTS, PUMP_STOPS, ALARM_ARRIVES, ALARM_CLEARS };

struct event {
    enum event_kind kind;
    const uint8_t *rows;
    size_t rows_size;
    uint64_t pump, alarm_class;
    uint16_t identity;
    uint32_t second;
};

static struct event event_of(enum event_kind kind)
{
    struct event event = {SET_BANDS, NULL, 0, 0, 0, 0, 0};

    event.kind = kind;
    return event;
}

static struct kagutin_reply call(struct kagutin *store, uint64_t writer, const struct event *event)
{
    switch (event->kind) {
    case SET_BANDS: return kagutin_bands_set(KGT_MEMORY(store), KGT_BATCH(store), event->rows, event->rows_size, writer);
    case PUMP_STARTS: return kagutin_pump_start(KGT_MEMORY(store), KGT_BATCH(store), writer, event->pump, event->second);
    case PUMP_STOPS: return kagutin_pump_stop(KGT_MEMORY(store), KGT_BATCH(store), writer, event->pump, event->second);
    case ALARM_ARRIVES:
        return kagutin_alarm_arrive(KGT_MEMORY(store), KGT_BATCH(store), writer, event->identity, event->alarm_class,
                                    event->second);
    default: return kagutin_alarm_clear(KGT_MEMORY(store), KGT_BATCH(store), writer, event->identity);
    }
}

/* Takes the event in, with room made once; figure is the library's. */
static struct kgt_reply take(struct kagutin *store, uint64_t writer, const struct event *event, uint64_t *figure)
{
    struct kgt_reply reply = kgt_inner_enter(store);
    struct kagutin_reply taken;

    *figure = 0;
    if (reply.code != KAGUTIN_DONE)
        return reply;
    taken = kgt_inner_run(store, call(store, writer, event));
    if (taken.code == KAGUTIN_FULL && kgt_inner_make_room(store, &taken))
        taken = kgt_inner_run(store, call(store, writer, event));
    *figure = taken.figure;
    return kgt_inner_leave(store, taken);
}

static struct kgt_ticket ticket_of(struct kagutin *store, uint64_t writer, const struct event *event)
{
    uint64_t figure;
    struct kgt_reply reply = take(store, writer, event, &figure);

    return kgt_inner_ticket(reply, figure);
}

struct kgt_table kgt_bands_set(struct kagutin *store, uint64_t writer, const uint8_t *rows, size_t size)
{
    struct event event = event_of(SET_BANDS);
    struct kgt_reply reply;
    struct kgt_table table;
    uint64_t figure;

    event.rows = rows;
    event.rows_size = size;
    reply = take(store, writer, &event, &figure);
    table.code = reply.code;
    table.ticket = reply.code == KAGUTIN_DONE ? figure : KGT_NOT_TOLD;
    table.mm = reply.code == KAGUTIN_BAND_GAP || reply.code == KAGUTIN_BAND_OVERLAP ? figure : KGT_NOT_TOLD;
    table.holder = reply.holder;
    table.error = reply.error;
    return table;
}

static struct kgt_ticket pump_event(struct kagutin *store, enum event_kind kind, uint64_t writer, uint64_t pump, uint32_t second)
{
    struct event event = event_of(kind);

    event.pump = pump;
    event.second = second;
    return ticket_of(store, writer, &event);
}

struct kgt_ticket kgt_pump_start(struct kagutin *store, uint64_t writer, uint64_t pump, uint32_t second)
{
    return pump_event(store, PUMP_STARTS, writer, pump, second);
}

struct kgt_ticket kgt_pump_stop(struct kagutin *store, uint64_t writer, uint64_t pump, uint32_t second)
{
    return pump_event(store, PUMP_STOPS, writer, pump, second);
}

struct kgt_ticket kgt_alarm_arrive(struct kagutin *store, uint64_t writer, uint16_t identity, uint64_t alarm_class,
                                   uint32_t second)
{
    struct event event = event_of(ALARM_ARRIVES);

    event.identity = identity;
    event.alarm_class = alarm_class;
    event.second = second;
    return ticket_of(store, writer, &event);
}

struct kgt_ticket kgt_alarm_clear(struct kagutin *store, uint64_t writer, uint16_t identity)
{
    struct event event = event_of(ALARM_CLEARS);

    event.identity = identity;
    return ticket_of(store, writer, &event);
}

/* ---- calls that read ---- */

struct kgt_band kgt_bands_look_up(struct kagutin *store, uint64_t writer, uint64_t mm)
{
    struct kgt_reply reply = kgt_inner_enter(store);
    struct kagutin_band found = {0, 0, 0, 0};
    struct kgt_band band;
    bool done;

    if (reply.code == KAGUTIN_DONE) {
        found = kagutin_bands_look_up(KGT_MEMORY(store), writer, mm);
        reply = kgt_inner_leave(store, kgt_inner_answer(found.code));
    }
    done = reply.code == KAGUTIN_DONE;
    band.code = reply.code;
    band.from = done ? found.from : KGT_NOT_TOLD;
    band.to = done ? found.to : KGT_NOT_TOLD;
    band.pumps = done ? found.pumps : KGT_NOT_TOLD;
    band.error = reply.error;
    return band;
}

struct kgt_hours kgt_pump_hours(struct kagutin *store, uint64_t writer, uint64_t pump)
{
    struct kgt_reply reply = kgt_inner_enter(store);
    struct kagutin_hours found = {0, 0, 0};
    struct kgt_hours hours;
    bool done;

    if (reply.code == KAGUTIN_DONE) {
        found = kagutin_pump_hours(KGT_MEMORY(store), writer, pump);
        reply = kgt_inner_leave(store, kgt_inner_answer(found.code));
    }
    done = reply.code == KAGUTIN_DONE;
    hours.code = reply.code;
    hours.starts = done ? found.starts : KGT_NOT_TOLD;
    hours.seconds = done ? found.seconds : KGT_NOT_TOLD;
    hours.error = reply.error;
    return hours;
}

struct kgt_services kgt_pump_services(struct kagutin *store, uint64_t writer, uint64_t pump, uint64_t interval)
{
    struct kgt_reply reply = kgt_inner_enter(store);
    struct kagutin_services found = {0, 0, 0};
    struct kgt_services services;
    bool done;

    if (reply.code == KAGUTIN_DONE) {
        found = kagutin_pump_services(KGT_MEMORY(store), writer, pump, interval);
        reply = kgt_inner_leave(store, kgt_inner_answer(found.code));
    }
    done = reply.code == KAGUTIN_DONE;
    services.code = reply.code;
    services.due = done ? found.due : KGT_NOT_TOLD;
    services.left = done ? found.left : KGT_NOT_TOLD;
    services.error = reply.error;
    return services;
}

struct kgt_alarm kgt_alarm_gravest(struct kagutin *store, uint64_t writer)
{
    struct kgt_reply reply = kgt_inner_enter(store);
    struct kagutin_alarm found = {0, 0, 0, 0};
    struct kgt_alarm alarm;
    bool open;

    if (reply.code == KAGUTIN_DONE) {
        found = kagutin_alarm_gravest(KGT_MEMORY(store), writer);
        reply = kgt_inner_leave(store, kgt_inner_answer(found.code));
    }
    open = reply.code == KAGUTIN_DONE && found.alarm_class != 0;
    alarm.code = reply.code;
    alarm.shown = reply.code != KAGUTIN_DONE ? KGT_ALARM_NOT_TOLD : open ? KGT_ALARM_OPEN : KGT_NONE_OPEN;
    alarm.identity = open ? found.identity : KGT_NOT_TOLD;
    alarm.alarm_class = open ? found.alarm_class : KGT_NOT_TOLD;
    alarm.second = open ? found.second : KGT_NOT_TOLD;
    alarm.error = reply.error;
    return alarm;
}
