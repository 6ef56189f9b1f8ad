/* The subcommands, each in a folder of its own; words[0] is its name. */
#ifndef KAGUTIN_PROGRAMS_H
#define KAGUTIN_PROGRAMS_H

#include "wear/wear.h"

int alarms_main(int count, char **words);
int bands_main(int count, char **words);
int convert_main(int count, char **words);
int export_main(int count, char **words);
int gauges_main(int count, char **words);
int import_main(int count, char **words);
int inflow_main(int count, char **words);
int inspect_main(int count, char **words);
int make_main(int count, char **words);
int rights_main(int count, char **words);
int station_main(int count, char **words);

#endif
