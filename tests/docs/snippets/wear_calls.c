/* docs/WEAR.md: starts, stops and services that are in the book, or not told. */
#include "tries.h"

#include <inttypes.h>

#include "kagutin_units.h"

enum { PUMP = 4, INTERVAL = 500 * 3600 };

static struct kagutin store;
static char panel[96];

static void panel_text(const char *text)
{
    snprintf(panel, sizeof panel, "%s", text);
}

static void panel_services(uint64_t pump, uint64_t due, uint64_t left)
{
    snprintf(panel, sizeof panel, "%" PRIu64 " %" PRIu64 " %" PRIu64, pump, due, left);
}

#include "wear_calls.snippet"

static void begin_run(const struct try_case *now)
{
    try_start(&store, now->landing);
    try_check(!note_stop(PUMP, 5) && note_start(PUMP, 10) && !note_start(PUMP, 11), "a start");
    try_fill(&store, now->log);
}

static bool in_stop(const struct try_case *now)
{
    struct kgt_services services;
    bool noted, met;

    begin_run(now);
    try_arm(now);
    noted = note_stop(PUMP, 10 + 2 * INTERVAL + 30);
    show_services(PUMP);
    met = try_disarm();
    try_check(met || noted == (now->log <= TRY_FULL), "durable where there is room, or can be made");
    try_check(strcmp(panel, noted ? "4 2 30" : met ? kgt_answer_text(KGT_DRIVER_FAILED) : "4 0 0") == 0, "the panel");
    if (!noted && !met)
        try_free(&store);
    try_cut(now->lands);
    services = kgt_pump_services(try_opened(), 2, PUMP, INTERVAL);
    try_check(services.code == KAGUTIN_DONE && services.due == (services.left ? 2 : 0), "a stop, or none");
    try_check(noted ? services.left == 30 : services.left == 0 || met, "what is called durable is there after a cut");
    return met;
}

static bool in_start(const struct try_case *now)
{
    struct kgt_hours hours;
    bool noted, met;

    begin_run(now);
    try_arm(now);
    noted = note_start(PUMP + 1, 10);
    met = try_disarm();
    try_check(met || noted == (now->log <= TRY_FULL), "durable where there is room, or can be made");
    try_cut(now->lands);
    hours = kgt_pump_hours(try_opened(), 2, PUMP + 1);
    try_check(hours.code == KAGUTIN_DONE, "the book can be read");
    try_check(noted ? hours.starts == 1 : hours.starts == 0 || (met && hours.starts == 1), "the start, or none");
    return met;
}

int main(void)
{
    try_all(in_stop);
    try_all(in_start);
    return try_end("wear_calls");
}
