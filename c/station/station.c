/* What every part of a run needs: numbers at random, and its ends. */
#include "station.h"

#include <signal.h>
#include <stdarg.h>
#include <stdlib.h>

uint64_t station_random(struct station *station, uint64_t limit)
{
    uint64_t word = station->random += 0x9E3779B97F4A7C15u;

    word = (word ^ word >> 30) * 0xBF58476D1CE4E5B9u;
    word = (word ^ word >> 27) * 0x94D049BB133111EBu;
    word ^= word >> 31;
    return limit ? word % limit : 0;
}

void station_free(struct station *station)
{
    driver_close(&station->driver);
    book_free(&station->book);
    events_free(&station->events);
    free(station->before);
}

void station_mismatch(struct station *station, const char *format, ...)
{
    va_list arguments;

    fflush(station->report);
    fputs("station: MISMATCH: ", stderr);
    va_start(arguments, format);
    vfprintf(stderr, format, arguments);
    va_end(arguments);
    fprintf(stderr, "\nafter %lu cuts and %lu calls; repeat with --seed %llu --cuts %lu --groups %lu --homes %lu%s\n",
            station->counters.cuts, station->counters.calls, (unsigned long long)station->seed, station->cuts,
            (unsigned long)station->driver.groups, (unsigned long)station->driver.homes,
            station->path ? " on a copy of the file from before the run" : "");
    station_free(station);
    exit(EXIT_MISMATCH);
}

void station_trouble(struct station *station)
{
    fflush(station->report);
    fprintf(stderr, "station: %s\n", driver_message(&station->driver));
    station_free(station);
    exit(EXIT_TROUBLE);
}

/* ---- interrupts ---- */

static volatile sig_atomic_t interrupted;

static void on_interrupt(int number)
{
    interrupted = 1;
    signal(number, SIG_DFL); /* a second one ends the program at once */
}

void station_catch_interrupt(void)
{
    signal(SIGINT, on_interrupt);
    signal(SIGTERM, on_interrupt);
}

bool station_interrupted(void)
{
    return interrupted != 0;
}

bool station_stops(const struct station *station)
{
    return interrupted || station->worn_out;
}
