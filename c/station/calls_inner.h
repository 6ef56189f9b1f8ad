/* What calls.c and event_calls.c share: the lent memory, and how a done or full call is held against the book. */
#ifndef STATION_CALLS_INNER_H
#define STATION_CALLS_INNER_H

#include "station.h"

#define AREAS(s) (s)->driver.log, (s)->driver.log_size, (s)->driver.area, (s)->driver.area_size
#define STATE(s) (s)->driver.state, sizeof(s)->driver.state
#define NEWEST(s) (s)->driver.newest, (s)->driver.newest_size
#define BATCH(s) (s)->driver.batch, (s)->driver.batch_size

/* The call must be done, with this figure and this size of its batch. */
void call_expect(struct station *station, const char *call, struct kagutin_reply reply, uint64_t figure, uint64_t size);

/* A batch must begin with a GW of this group, which the book fills. */
void call_expect_group(struct station *station, const char *call, uint64_t group);

/* A call was refused since the log is full: says why it is. */
void call_refused_full(struct station *station, const char *call, struct kagutin_reply reply, unsigned writer);

void call_submit(struct station *station, uint64_t size);

#endif
