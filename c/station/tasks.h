/* The eight tasks. */
#ifndef STATION_TASKS_H
#define STATION_TASKS_H

#include "station.h"

/* Just after an opening: task 0 commits the list of rights, unless it is there. */
void tasks_set_rights(struct station *station);

/* One step of a task chosen at random; all tasks lose their work at a cut. */
void tasks_step(struct station *station);
void tasks_power_cut(struct station *station);

/* The run ends: open transactions are given up. */
void tasks_stop(struct station *station);

#endif
