/* Times of readings: minutes by number, times of the clock, or days and times. */
#ifndef GAUGES_TIMES_H
#define GAUGES_TIMES_H

#include <stdbool.h>
#include <stdint.h>

enum time_kind { TIME_MINUTE, TIME_CLOCK, TIME_DAY };

struct reading_time {
    enum time_kind kind;
    int64_t day; /* 0 but for TIME_DAY */
    uint16_t minute;
};

/*
 * Reads the time at the front of a row and leaves text behind it: 0 to 65535,
 * HH:MM, or YYYY-MM-DD and HH:MM with a T or a blank between; seconds only as
 * :00. Null if it is one, else what is wrong with it.
 */
const char *time_read(const char **text, struct reading_time *time);

/* A minute as the report and the plot name it: its number, or HH:MM. */
enum { TIME_TEXT = 12 };
void time_write(enum time_kind kind, unsigned minute, char text[TIME_TEXT]);

/* What a kind is called. */
const char *time_kind_name(enum time_kind kind);

#endif
