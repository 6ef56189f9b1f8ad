/* The cases that a program is asked for: LOG:CALL:VARIANT:KIND, all if there are none. */
#ifndef WORST_CASES_H
#define WORST_CASES_H

#include "logs.h"

/* Makes a log's calls that are wanted, or without `make` tells whether one is. */
typedef bool worst_each(const struct worst_log *log, char **cases, bool make);

bool worst_wanted(const struct worst_log *log, const struct worst_call *call, const char *kind, char **cases);

/* The call whose instructions count, after it a line: log, kind, call, variant, answer. */
void worst_count(const struct worst_log *log, const struct worst_call *call, const char *kind);

/* Goes over the logs by the program's words GROUPS HOMES [CASE..]; returns its status. */
int worst_go(int count, char **words, const struct worst_log *logs, size_t log_count, worst_each *each);

#endif
