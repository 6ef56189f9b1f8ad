/* Days of the calendar, as numbers that count on. */
#ifndef COMMON_DAY_H
#define COMMON_DAY_H

#include <stdbool.h>
#include <stdint.h>

enum { DAY_TEXT = 11 };

/* A day written YYYY-MM-DD, from 1970 to 9999; false if it is none. Day 0 is 1970-01-01. */
bool day_read(const char *text, int64_t *day);

void day_write(int64_t day, char text[DAY_TEXT]);

/* By the clock and the zone of this machine. */
int64_t day_today(void);

#endif
