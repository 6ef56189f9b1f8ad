#include "day.h"

#include <stdio.h>
#include <string.h>
#include <time.h>

static int days_of(int month, int year)
{
    static const int days[] = {31, 28, 31, 30, 31, 30, 31, 31, 30, 31, 30, 31};

    return days[month - 1] + (month == 2 && ((year % 4 == 0 && year % 100 != 0) || year % 400 == 0));
}

static int64_t number_of(int year, int month, int day)
{
    int64_t before = year - 1, number = before * 365 + before / 4 - before / 100 + before / 400 + day - 719163;
    int m;

    for (m = 1; m < month; m++)
        number += days_of(m, year);
    return number;
}

bool day_read(const char *text, int64_t *day)
{
    int digits[8], count = 0, year, month, of_month;
    size_t i;

    if (strlen(text) != DAY_TEXT - 1 || text[4] != '-' || text[7] != '-')
        return false;
    for (i = 0; text[i]; i++) {
        if (i == 4 || i == 7)
            continue;
        if (text[i] < '0' || text[i] > '9')
            return false;
        digits[count++] = text[i] - '0';
    }
    year = digits[0] * 1000 + digits[1] * 100 + digits[2] * 10 + digits[3];
    month = digits[4] * 10 + digits[5];
    of_month = digits[6] * 10 + digits[7];
    if (year < 1970 || month < 1 || month > 12 || of_month < 1 || of_month > days_of(month, year))
        return false;
    *day = number_of(year, month, of_month);
    return true;
}

void day_write(int64_t day, char text[DAY_TEXT])
{
    int year = 1970, month = 1, of_month;

    while (year < 9999 && number_of(year + 1, 1, 1) <= day)
        year++;
    while (month < 12 && number_of(year, month + 1, 1) <= day)
        month++;
    of_month = (int)(day - number_of(year, month, 1)) + 1;
    snprintf(text, DAY_TEXT, "%04u-%02u-%02u", (unsigned)year % 10000, (unsigned)month % 100, (unsigned)of_month % 100);
}

int64_t day_today(void)
{
    time_t now = time(NULL);
    struct tm parts;

    if (now == (time_t)-1 || !localtime_r(&now, &parts) || parts.tm_year < 70)
        return 0;
    return number_of(parts.tm_year + 1900, parts.tm_mon + 1, parts.tm_mday);
}
