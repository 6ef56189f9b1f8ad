/* The list of rights that the station runs with, and what the book says of it. */
#ifndef STATION_RIGHTS_H
#define STATION_RIGHTS_H

#include "kagutin_rights.h"
#include "station.h"

/* The task that switches pumps by the table of depth bands, those that make the events of pumps and of alarms, and the one
 * that shows all of it, which may read every home. */
enum { SWITCHING = 1, RUN_HOURS = 2, ALARMS = 3, SERVICE = 7 };

/* The list: every task may touch its own home and the notes, and the homes of its events. */
void rights_make(struct kgt_rights *list);

/* Is that list committed? What does the one that is committed, or none, let a task do? */
bool rights_are_set(const struct station *station);
bool rights_may_store(const struct station *station, unsigned writer, size_t home);
bool rights_may_read(const struct station *station, unsigned writer, size_t home);

#endif
