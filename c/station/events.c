#include "events.h"

#include <stdio.h>
#include <stdlib.h>
#include <string.h>

#include "common/rule.h"

enum { PUMP_BYTES = 13, ALARM_BYTES = 7, FIRST_ALARM = 8 };

static bool are_zeros(const uint8_t *bytes, size_t size)
{
    while (size > 0 && bytes[size - 1] == 0)
        size--;
    return size == 0;
}

static bool read_pump(const uint8_t *block, struct event_pump *pump)
{
    pump->starts = rule_number(block, 4);
    pump->seconds = rule_number(block + 4, 4);
    pump->last = rule_number(block + 8, 4);
    pump->running = block[12];
    return pump->running <= 1 && pump->seconds <= pump->last && pump->starts >= pump->running
        && are_zeros(block + PUMP_BYTES, KAGUTIN_BLOCK_SIZE - PUMP_BYTES);
}

/* One alarm of the list; its identity may be there once. */
static bool read_alarm(const uint8_t *bytes, struct event_sums *sums)
{
    uint64_t identity = rule_number(bytes, 2);

    if (identity >= EVENT_ALARMS || sums->alarms[identity].alarm_class || !bytes[2] || bytes[2] > KAGUTIN_MAX_CLASS)
        return false;
    sums->alarms[identity].alarm_class = bytes[2];
    sums->alarms[identity].second = rule_number(bytes + 3, 4);
    return true;
}

static bool read_alarms(const uint8_t *bytes, struct event_sums *sums)
{
    size_t count = bytes[0], end = FIRST_ALARM + ALARM_BYTES * count, i;
    unsigned gravest;

    if (count > KAGUTIN_MAX_ALARMS || !are_zeros(bytes + end, KAGUTIN_ALARMS_HOMES * KAGUTIN_BLOCK_SIZE - end))
        return false;
    for (i = 0; i < count; i++)
        if (!read_alarm(bytes + FIRST_ALARM + ALARM_BYTES * i, sums))
            return false;
    gravest = events_gravest(sums);
    if (gravest == EVENT_ALARMS)
        return are_zeros(bytes + 1, ALARM_BYTES);
    return rule_number(bytes + 1, 2) == gravest && bytes[3] == sums->alarms[gravest].alarm_class
        && rule_number(bytes + 4, 4) == sums->alarms[gravest].second;
}

bool events_read(const uint8_t *area, struct event_sums *sums)
{
    size_t pump;

    memset(sums, 0, sizeof *sums);
    for (pump = 0; pump < KAGUTIN_PUMPS; pump++)
        if (!read_pump(area + kagutin_area_size(KAGUTIN_PUMP_HOME + pump), &sums->pumps[pump]))
            return false;
    return read_alarms(area + kagutin_area_size(KAGUTIN_ALARMS_HOME), sums);
}

bool events_start(struct events *events, const uint8_t *area)
{
    bool right = events_read(area, &events->kept);

    events->newest = events->kept;
    events->count = 0;
    return right;
}

void events_free(struct events *events)
{
    free(events->list);
    memset(events, 0, sizeof *events);
}

static void apply(struct event_sums *sums, const struct event *event)
{
    struct event_pump *pump = &sums->pumps[event->number % KAGUTIN_PUMPS];
    struct event_alarm *alarm = &sums->alarms[event->number];

    switch (event->kind) {
    case PUMP_STARTS:
        pump->starts++;
        pump->running = 1;
        pump->last = event->second;
        break;
    case PUMP_STOPS:
        pump->seconds += event->second - pump->last;
        pump->running = 0;
        pump->last = event->second;
        break;
    case ALARM_ARRIVES:
        alarm->alarm_class = event->alarm_class;
        alarm->second = event->second;
        break;
    default: memset(alarm, 0, sizeof *alarm); break;
    }
}

void events_add(struct events *events, const struct event *event)
{
    if (events->count == events->room) {
        events->room = 2 * events->room + 64;
        events->list = realloc(events->list, events->room * sizeof *events->list);
        if (!events->list) {
            fputs("out of memory for the list of events\n", stderr);
            exit(3);
        }
    }
    events->list[events->count++] = *event;
    apply(&events->newest, event);
}

void events_power_cut(struct events *events, size_t run)
{
    size_t i;

    for (i = 0; i < events->count && events->list[i].commit < run; i++)
        apply(&events->kept, &events->list[i]);
    events->newest = events->kept;
    events->count = 0;
}

/* Lowest class, then earliest second, then lowest identity. */
unsigned events_gravest(const struct event_sums *sums)
{
    unsigned gravest = EVENT_ALARMS, i;

    for (i = 0; i < EVENT_ALARMS; i++) {
        const struct event_alarm *one = &sums->alarms[i], *other = &sums->alarms[gravest % EVENT_ALARMS];

        if (one->alarm_class
            && (gravest == EVENT_ALARMS || one->alarm_class < other->alarm_class
                || (one->alarm_class == other->alarm_class && one->second < other->second)))
            gravest = i;
    }
    return gravest;
}

unsigned events_open(const struct event_sums *sums)
{
    unsigned count = 0, i;

    for (i = 0; i < EVENT_ALARMS; i++)
        count += sums->alarms[i].alarm_class != 0;
    return count;
}

uint32_t events_latest(const struct event_sums *sums)
{
    uint64_t latest = 0;
    size_t i;

    for (i = 0; i < KAGUTIN_PUMPS; i++)
        if (sums->pumps[i].last > latest)
            latest = sums->pumps[i].last;
    for (i = 0; i < EVENT_ALARMS; i++)
        if (sums->alarms[i].second > latest)
            latest = sums->alarms[i].second;
    return (uint32_t)latest;
}
