/*
 * The state of a station's run, which all its parts share. They build on each
 * other in this order, each including only what stands before it: station,
 * report, rights, refusals, calls, event_calls, wear, tasks, power.
 */
#ifndef STATION_H
#define STATION_H

#include <stdio.h>

#include "book.h"
#include "driver.h"
#include "events.h"

/* The homes of a task's own block, and of the notes; docs/HOMES.md has the others. */
#define STATION_OWN(task) ((size_t)(task))
#define STATION_NOTES 32
#define STATION_MIN_HOMES (KAGUTIN_ALARMS_HOME + KAGUTIN_ALARMS_HOMES)

enum exit_status {
    EXIT_FINE = 0,
    EXIT_MISMATCH = 1,
    EXIT_USAGE = 2,
    EXIT_TROUBLE = 3,
    EXIT_WORN_OUT = 4,
    EXIT_INTERRUPTED = 130
};

/* What a task is about to do: stores still to come, then commit or abort. */
struct task {
    bool open, gives_up;
    size_t next, count;
    uint16_t plan[64];
};

struct counters {
    unsigned long calls, refusals, full, reserves, waits, reads, commits, aborts, given_up, confirms, trims, rounds, steps;
    unsigned long full_live, full_dead, holds[KAGUTIN_WRITERS]; /* places, and who held the log, when it was full */
    unsigned long pump_events, alarm_events;
    unsigned long lists, store_denied, read_denied; /* lists committed, and what they forbid */
    unsigned long replayed, cuts, opening_cuts;
    unsigned long kept[KAGUTIN_WRITERS], lost[KAGUTIN_WRITERS], unissued[KAGUTIN_WRITERS]; /* commits by task */
    unsigned long left; /* commits in an image that was not opened after its last cut */
};

struct station {
    struct driver driver;
    struct book book;
    struct events events;
    struct task tasks[KAGUTIN_WRITERS];
    struct counters counters;
    struct kagutin_places usage; /* of the log when it was last counted */
    uint64_t seed, random;
    uint64_t abort_odds; /* one transaction in so many is given up */
    uint32_t second;     /* its clock, which goes on over cuts */
    bool storm;          /* alarms come faster than they clear */
    unsigned long cuts;
    size_t groups, homes;
    const char *path;
    bool csv, keep_cut, verbose, progress;
    bool go_on;      /* also with an image that no station has made */
    bool opened;     /* the store is open */
    bool worn_out;   /* the log's start can move no further */
    FILE *report;    /* what was cut and what came back */
    uint8_t *before; /* the lent memory before a call that must be refused */
};

/* A number below the limit, repeated with the seed. */
uint64_t station_random(struct station *station, uint64_t limit);

/* End the run: the store did not do as the book says; the driver failed. */
void station_mismatch(struct station *station, const char *format, ...);
void station_trouble(struct station *station);

void station_free(struct station *station);

/* After this an interrupt ends the run at its next step, with its report. */
void station_catch_interrupt(void);
bool station_interrupted(void);

/* Is the run to end before its last cut? */
bool station_stops(const struct station *station);

#endif
