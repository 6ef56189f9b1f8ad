/* The calls of the hours book and of the alarms, each held against the book and the events. */
#ifndef STATION_EVENT_CALLS_H
#define STATION_EVENT_CALLS_H

#include "station.h"

/* An event that must be done, in one transaction of an idle writer; false, and all untouched, if the log is full. */
bool call_event(struct station *station, unsigned writer, struct event *event);

/* The same call, held against nothing. */
struct kagutin_reply call_event_bare(struct station *station, unsigned writer, const struct event *event);

/* What a task shows, which must be what the events come to. */
struct kagutin_hours call_hours(struct station *station, unsigned task, unsigned pump);
struct kagutin_services call_services(struct station *station, unsigned task, unsigned pump, uint64_t interval);
struct kagutin_alarm call_gravest(struct station *station, unsigned task);

/* After an opening: homes, hours, starts and the gravest alarm are those of the events in the run. */
void call_check_events(struct station *station);

#endif
