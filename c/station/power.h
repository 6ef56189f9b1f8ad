/* Work, power cuts and openings. */
#ifndef STATION_POWER_H
#define STATION_POWER_H

#include "station.h"

/* Opens, then works and cuts the power until all cuts are made. */
void power_run(struct station *station);

/* The image is none of a station's: ends the run and says why. */
void power_refuse_image(struct station *station, const char *why);

#endif
