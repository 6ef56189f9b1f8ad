/*
 * Worst cases on this machine: worst GROUPS HOMES makes every call on every log, worst GROUPS HOMES CASE.. those that are named.
 * callgrind counts inside the library's functions: tests/worst/worst.py.
 */
#include "cases.h"

static bool each_call(const struct worst_log *log, char **cases, bool make)
{
    const char *kind = log->damage ? "damaged" : "valid";
    size_t i;

    for (i = 0; i < worst_call_count; i++) {
        const struct worst_call *call = &worst_calls[i];

        if (!worst_wanted(log, call, kind, cases))
            continue;
        if (!make)
            return true;
        worst_restore();
        call->prepare();
        worst_count(log, call, kind);
    }
    return false;
}

int main(int count, char **words)
{
    return worst_go(count, words, worst_logs, worst_log_count, each_call);
}
