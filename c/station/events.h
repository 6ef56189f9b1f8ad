/*
 * Events of pumps and alarms, and what they come to: what the hours book and
 * the alarms must say, reckoned from the events alone. After a cut those count
 * whose commits are in the run.
 */
#ifndef STATION_EVENTS_H
#define STATION_EVENTS_H

#include <stdbool.h>

#include "kagutin_alarms.h"
#include "kagutin_hours.h"

enum { EVENT_ALARMS = 64 }; /* the station's alarms have the identities below this */

enum event_kind { PUMP_STARTS, PUMP_STOPS, ALARM_ARRIVES, ALARM_CLEARS };

struct event {
    enum event_kind kind;
    unsigned number; /* pump, or identity */
    unsigned alarm_class;
    uint32_t second;
    size_t commit; /* its place in the list of commits since the last cut */
};

struct event_pump {
    uint64_t starts, seconds, last, running;
};

/* Class 0: not open. */
struct event_alarm {
    uint64_t alarm_class, second;
};

struct event_sums {
    struct event_pump pumps[KAGUTIN_PUMPS];
    struct event_alarm alarms[EVENT_ALARMS];
};

struct events {
    struct event_sums kept;   /* after the run at the last cut */
    struct event_sums newest; /* after all events */
    struct event *list;       /* since the last cut */
    size_t count, room;
};

/* What the homes of pumps and alarms say, by docs/HOMES.md; false if their bytes are no station's. */
bool events_read(const uint8_t *area, struct event_sums *sums);

/* Begins with what the homes say; false as events_read. */
bool events_start(struct events *events, const uint8_t *area);
void events_free(struct events *events);

/* An event that is done; a cut after which so many commits are in the run. */
void events_add(struct events *events, const struct event *event);
void events_power_cut(struct events *events, size_t run);

/* The gravest open alarm, EVENT_ALARMS if none is; how many are open; the latest second of a pump or alarm. */
unsigned events_gravest(const struct event_sums *sums);
unsigned events_open(const struct event_sums *sums);
uint32_t events_latest(const struct event_sums *sums);

#endif
