/* What the station shows at the end: the commits of its tasks, the panel, the wear sheet. */
#ifndef STATION_WEAR_H
#define STATION_WEAR_H

#include "station.h"

void wear_sheet(struct station *station);

#endif
