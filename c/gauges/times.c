#include "times.h"

#include <ctype.h>
#include <errno.h>
#include <stdio.h>
#include <stdlib.h>
#include <string.h>

#include "common/day.h"

enum { DAY_LENGTH = 10, HOURS = 24, MINUTES = 60 };

/* Two digits below a limit. */
static bool read_pair(const char **text, unsigned limit, unsigned *number)
{
    const char *at = *text;

    if (!isdigit((unsigned char)at[0]) || !isdigit((unsigned char)at[1]))
        return false;
    *number = (unsigned)(at[0] - '0') * 10 + (unsigned)(at[1] - '0');
    *text += 2;
    return *number < limit;
}

/* HH:MM, with :00 behind it or not. */
static const char *read_clock(const char **text, uint16_t *minute)
{
    unsigned hours, minutes, seconds;

    if (!read_pair(text, HOURS, &hours) || *(*text)++ != ':' || !read_pair(text, MINUTES, &minutes))
        return "the time is not from 00:00 to 23:59";
    if (**text == ':') {
        ++*text;
        if (!read_pair(text, MINUTES, &seconds) || seconds)
            return "whole minutes are compared; seconds other than 00";
    }
    *minute = (uint16_t)(hours * MINUTES + minutes);
    return NULL;
}

static const char *read_minute(const char **text, uint16_t *minute)
{
    unsigned long value;
    char *end;

    errno = 0;
    value = strtoul(*text, &end, 10);
    if (errno || value > UINT16_MAX)
        return "the minute is above 65535";
    *minute = (uint16_t)value;
    *text = end;
    return NULL;
}

/* Is there a colon or a dash behind the digits? */
static char behind_digits(const char *text)
{
    while (isdigit((unsigned char)*text))
        text++;
    return *text;
}

const char *time_read(const char **text, struct reading_time *time)
{
    char day[DAY_TEXT] = "";

    time->day = 0;
    time->minute = 0;
    if (!isdigit((unsigned char)**text))
        return **text ? "the minute is not a whole number" : "the minute is missing";
    time->kind = behind_digits(*text) == ':' ? TIME_CLOCK : behind_digits(*text) == '-' ? TIME_DAY : TIME_MINUTE;
    if (time->kind == TIME_MINUTE)
        return read_minute(text, &time->minute);
    if (time->kind == TIME_CLOCK)
        return read_clock(text, &time->minute);
    strncat(day, *text, DAY_LENGTH);
    if (!day_read(day, &time->day))
        return "the day is not one, as YYYY-MM-DD";
    *text += DAY_LENGTH;
    if (**text != 'T' && **text != ' ')
        return "a time HH:MM is missing behind the day";
    ++*text;
    return read_clock(text, &time->minute);
}

void time_write(enum time_kind kind, unsigned minute, char text[TIME_TEXT])
{
    if (kind == TIME_MINUTE)
        snprintf(text, TIME_TEXT, "%u", minute);
    else
        snprintf(text, TIME_TEXT, "%02u:%02u", minute / MINUTES % 100, minute % MINUTES);
}

const char *time_kind_name(enum time_kind kind)
{
    return kind == TIME_MINUTE ? "minutes" : kind == TIME_CLOCK ? "clock times" : "days and times";
}
