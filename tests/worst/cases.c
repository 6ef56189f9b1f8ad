/* Cases by name, and the call that counts. */
#include "cases.h"

#include <stdio.h>
#include <stdlib.h>
#include <string.h>

/* callgrind dumps after each of these. */
__attribute__((noinline)) uint64_t counted(const struct worst_call *call);
uint64_t counted(const struct worst_call *call)
{
    return call->run();
}

void worst_count(const struct worst_log *log, const struct worst_call *call, const char *kind)
{
    printf("%s\t%s\t%s\t%s\t%lu\n", log->name, kind, call->name, call->variant, (unsigned long)counted(call));
}

bool worst_wanted(const struct worst_log *log, const struct worst_call *call, const char *kind, char **cases)
{
    char name[200];

    if (!*cases)
        return true;
    snprintf(name, sizeof name, "%s:%s:%s:%s", log->name, call->name, call->variant, kind);
    while (*cases && strcmp(*cases, name) != 0)
        cases++;
    return *cases != NULL;
}

int worst_go(int count, char **words, const struct worst_log *logs, size_t log_count, worst_each *each)
{
    size_t i, groups, homes;

    if (count < 3)
        return 2;
    groups = strtoul(words[1], NULL, 10);
    homes = strtoul(words[2], NULL, 10);
    for (i = 0; i < log_count; i++) {
        const struct worst_log *log = &logs[i];

        if (!each(log, words + 3, false))
            continue;
        if (!worst_make(log, groups, homes)) {
            fprintf(stderr, "'%s' cannot be made\n", log->name);
            return 1;
        }
        each(log, words + 3, true);
    }
    return 0;
}
