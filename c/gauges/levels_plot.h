/* A plot of two lists of levels and of the minutes at which they differ, as an SVG file. */
#ifndef GAUGES_LEVELS_PLOT_H
#define GAUGES_LEVELS_PLOT_H

#include <stdio.h>

#include "readings.h"

/* What a plot begins with, by which gauges knows its own. */
#define LEVELS_PLOT_MARK "<!-- Kagutin levels plot"

struct levels_plot {
    const struct readings *first, *second;
    const uint8_t *report; /* lines as the library writes them */
    size_t lines;
    unsigned tolerance;
    const char *day; /* empty: none */
};

/* Writes the plot; a step of a list longer than its usual one is a gap in its line. The caller looks for errors of the file. */
void levels_plot_write(const struct levels_plot *plot, FILE *file);

#endif
