/* docs/ALARMS.md: a panel that never says "no alarm" while one may be open. */
#include "tries.h"

#include <inttypes.h>

#include "kagutin_units.h"

static struct kagutin store;
static char panel[64];

static void panel_text(const char *text)
{
    snprintf(panel, sizeof panel, "%s", text);
}

static void panel_alarm(uint64_t identity, uint64_t alarm_class, uint64_t second)
{
    snprintf(panel, sizeof panel, "%" PRIu64 " %" PRIu64 " %" PRIu64, identity, alarm_class, second);
}

#include "alarms_panel.snippet"

static bool shows(const char *text)
{
    show_panel();
    return strcmp(panel, text) == 0;
}

static void begin_shift(const struct try_case *now)
{
    memset(&store, 0, sizeof store);
    try_check(shows("alarms not known"), "before the opening nothing is known");
    try_start(&store, now->landing);
    try_check(shows("no alarm"), "none is open");
    try_check(raise_alarm(8, 2, 50) && shows("8 2 50"), "an alarm");
    try_check(!raise_alarm(8, 3, 51) && !raise_alarm(7, 10, 51) && !clear_alarm(7), "refused events");
    try_check(shows("8 2 50"), "change nothing");
    try_fill(&store, now->log);
}

/* The gravest alarm after the cut; 0: none. */
static uint64_t after_cut(const struct try_case *now)
{
    struct kgt_alarm gravest;

    try_cut(now->lands);
    gravest = kgt_alarm_gravest(try_opened(), 2);
    try_check(gravest.code == KAGUTIN_DONE && gravest.shown != KGT_ALARM_NOT_TOLD, "the judge is told");
    return gravest.shown == KGT_ALARM_OPEN ? gravest.identity : 0;
}

/* Alarm 8 is open throughout, so that "no alarm" is never right. */
static bool in_arrival(const struct try_case *now)
{
    uint64_t gravest;
    bool raised, met;

    begin_shift(now);
    try_arm(now);
    raised = raise_alarm(9, 1, 60);
    show_panel();
    met = try_disarm();
    try_check(met || raised == (now->log <= TRY_FULL), "durable where there is room, or can be made");
    try_check(strcmp(panel, raised ? "9 1 60" : met ? "alarms not known" : "8 2 50") == 0, "the panel");
    if (!raised && !met)
        try_free(&store);
    gravest = after_cut(now);
    try_check(raised ? gravest == 9 : gravest == 8 || (met && gravest == 9), "what is called durable is there after a cut");
    return met;
}

static bool in_clearing(const struct try_case *now)
{
    uint64_t gravest;
    bool cleared, met;

    begin_shift(now);
    try_arm(now);
    cleared = clear_alarm(8);
    show_panel();
    met = try_disarm();
    try_check(met || cleared == (now->log <= TRY_FULL), "durable where there is room, or can be made");
    try_check(strcmp(panel,
                     cleared   ? "no alarm"
                         : met ? "alarms not known"
                               : "8 2 50")
                  == 0,
              "\"no alarm\" only where none is open");
    gravest = after_cut(now);
    try_check(cleared ? gravest == 0 : gravest == 8 || (met && gravest == 0), "what is called durable is so after a cut");
    return met;
}

int main(void)
{
    try_all(in_arrival);
    try_all(in_clearing);
    return try_end("alarms_panel");
}
