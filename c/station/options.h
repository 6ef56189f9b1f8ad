/* The station's command line. */
#ifndef STATION_OPTIONS_H
#define STATION_OPTIONS_H

#include "station.h"

/* Reads the options; ends the program at a wrong one, and after --help. */
void options_read(struct station *station, int count, char **words);

#endif
