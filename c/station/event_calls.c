#include "event_calls.h"

#include <string.h>

#include "calls_inner.h"
#include "refusals.h"
#include "rights.h"

#define MEMORY(s) AREAS(s), STATE(s), NEWEST(s)

static const char *const names[] = {"pump_start", "pump_stop", "alarm_arrive", "alarm_clear"};

struct kagutin_reply call_event_bare(struct station *s, unsigned writer, const struct event *event)
{
    switch (event->kind) {
    case PUMP_STARTS: return kagutin_pump_start(MEMORY(s), BATCH(s), writer, event->number, event->second);
    case PUMP_STOPS: return kagutin_pump_stop(MEMORY(s), BATCH(s), writer, event->number, event->second);
    case ALARM_ARRIVES:
        return kagutin_alarm_arrive(MEMORY(s), BATCH(s), writer, (uint16_t)event->number, event->alarm_class, event->second);
    default: return kagutin_alarm_clear(MEMORY(s), BATCH(s), writer, (uint16_t)event->number);
    }
}

/* The transaction of a done event into the book, with the blocks that it left; gives the ticket. */
static uint64_t book_event(struct station *station, unsigned writer, size_t home, size_t homes)
{
    uint8_t block[KAGUTIN_BLOCK_SIZE];

    book_begin(&station->book, writer, 0);
    for (; homes > 0; homes--, home++) {
        call_expect(station, "read", kagutin_read(MEMORY(station), block, sizeof block, writer, home), 0, 0);
        book_store(&station->book, writer, home, block);
    }
    return book_commit(&station->book, writer);
}

bool call_event(struct station *station, unsigned writer, struct event *event)
{
    bool of_pump = event->kind == PUMP_STARTS || event->kind == PUMP_STOPS;
    size_t home = of_pump ? KAGUTIN_PUMP_HOME + event->number : KAGUTIN_ALARMS_HOME;
    size_t homes = of_pump ? 1 : KAGUTIN_ALARMS_HOMES;
    uint64_t size = station->book.filled + homes >= KAGUTIN_GROUP_ENTRIES ? KAGUTIN_GW_SIZE : 0, group = station->book.next;
    bool full = book_free_places(&station->book) < homes;
    struct kagutin_reply reply;

    if (full)
        refusal_prepare(station);
    reply = call_event_bare(station, writer, event);
    if (full) {
        call_refused_full(station, of_pump ? "pump" : "alarm", reply, writer);
        return false;
    }
    if (reply.code == KAGUTIN_DONE && size)
        call_expect_group(station, names[event->kind], group);
    call_expect(station, names[event->kind], reply, reply.code == KAGUTIN_DONE ? book_event(station, writer, home, homes) : 0,
                size);
    event->commit = station->book.commit_count - 1;
    events_add(&station->events, event);
    station->counters.commits++;
    *(of_pump ? &station->counters.pump_events : &station->counters.alarm_events) += 1;
    call_submit(station, reply.size);
    return true;
}

/* A figure must be the one that the events come to. */
static void expect_figure(struct station *station, const char *what, unsigned number, uint64_t figure, uint64_t events)
{
    if (figure != events)
        station_mismatch(station, "%s %u: %llu, by the events %llu", what, number, (unsigned long long)figure,
                         (unsigned long long)events);
}

struct kagutin_hours call_hours(struct station *station, unsigned task, unsigned pump)
{
    const struct event_pump *sum = &station->events.newest.pumps[pump];
    struct kagutin_hours hours = kagutin_pump_hours(MEMORY(station), task, pump);

    station->counters.calls++;
    expect_figure(station, "answer on the hours of pump", pump, hours.code, KAGUTIN_DONE);
    expect_figure(station, "starts of pump", pump, hours.starts, sum->starts);
    expect_figure(station, "run seconds of pump", pump, hours.seconds, sum->seconds);
    return hours;
}

struct kagutin_services call_services(struct station *station, unsigned task, unsigned pump, uint64_t interval)
{
    const struct event_pump *sum = &station->events.newest.pumps[pump];
    struct kagutin_services services = kagutin_pump_services(MEMORY(station), task, pump, interval);

    station->counters.calls++;
    expect_figure(station, "answer on the services of pump", pump, services.code, KAGUTIN_DONE);
    expect_figure(station, "services due of pump", pump, services.due, sum->seconds / interval);
    expect_figure(station, "seconds since the last service due of pump", pump, services.left, sum->seconds % interval);
    return services;
}

struct kagutin_alarm call_gravest(struct station *station, unsigned task)
{
    const struct event_sums *sums = &station->events.newest;
    unsigned gravest = events_gravest(sums);
    bool none = gravest == EVENT_ALARMS;
    struct kagutin_alarm alarm = kagutin_alarm_gravest(MEMORY(station), task);

    station->counters.calls++;
    expect_figure(station, "answer on the gravest alarm to task", task, alarm.code, KAGUTIN_DONE);
    expect_figure(station, "gravest alarm to task", task, alarm.identity, none ? 0 : gravest);
    expect_figure(station, "class of the gravest alarm to task", task, alarm.alarm_class,
                  none ? 0 : sums->alarms[gravest].alarm_class);
    expect_figure(station, "second of the gravest alarm to task", task, alarm.second, none ? 0 : sums->alarms[gravest].second);
    return alarm;
}

void call_check_events(struct station *station)
{
    struct event_sums sums;
    unsigned pump;

    if (!events_read(station->driver.area, &sums) || memcmp(&sums, &station->events.kept, sizeof sums) != 0)
        station_mismatch(station, "the homes of pumps and alarms do not say what the events in the run come to");
    if (!rights_may_read(station, SERVICE, KAGUTIN_PUMP_HOME)) /* the image came with another list */
        return;
    for (pump = 0; pump < KAGUTIN_PUMPS; pump++)
        call_hours(station, SERVICE, pump);
    call_gravest(station, SERVICE);
}
