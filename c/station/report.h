/* What a run prints of its cuts: a line while it runs, each cut if asked for, a summary. */
#ifndef STATION_REPORT_H
#define STATION_REPORT_H

#include "station.h"

/* What a cut found and left. */
struct report_cut {
    bool opening;             /* power failed while the store was opening */
    size_t waiting;           /* records not yet issued */
    size_t issued, persisted; /* blocks written since the last fence; those of them that arrived */
    struct book_cut book;
};

void report_start(struct station *station);

/* A cut has been made; the opening after it is done, or the image is left as it is. */
void report_cut(struct station *station, const struct report_cut *cut);
void report_opened(struct station *station, const struct report_cut *cut, unsigned long replayed);
void report_left(struct station *station, const struct report_cut *cut);

/* A store or commit was refused since the log is full, and its places are counted. Printed the first time, or each if asked for. */
void report_full(struct station *station, const char *call, unsigned writer);

void report_summary(struct station *station);

#endif
