/*
 * Worst cases of the calls on units: as host.c, with full tables in the log. A call that changes a table comes from an idle writer, or from one
 * with a long open transaction, which is refused with 6 only when the homes have been read.
 */
#include <stdlib.h>

#include "cases.h"
#include "kagutin_alarms.h"
#include "kagutin_bands.h"
#include "kagutin_hours.h"

enum { PUMP = 3, RUNNING = 4, OPEN_ALARMS = 47, STEP_MM = 312 };

#define LENT LENT_AREAS, LENT_STATE, LENT_NEWEST

static const struct worst_log logs[] = {
    {"own entries, all open, a list", NULL, OWN, 1, 0, SPREAD, 1, ALL_OPEN | UNITS},
    {"own entries, high homes, a list", NULL, OWN, 1, 0, HIGH, 1, ALL_OPEN | LIST_OWN | UNITS},
    {"another's entries, all open, a list", NULL, OTHERS, 1, 0, SPREAD, 1, ALL_OPEN | UNITS},
    {"all open, a list, 8 places left", NULL, OTHERS, 1, 0, SPREAD, 8, ALL_OPEN | UNITS},
    {"commits of 1, all open, a list", NULL, COMMITS, 1, 1, SPREAD, 15, (ALL_OPEN & ~IN_ROUND) | UNITS},
    {"near misses of the bands' homes", near_bands, OWN, 1, 0, SPREAD, 1, ALL_OPEN | UNITS},
    {"near misses of the pumps' homes", near_pumps, OWN, 1, 0, SPREAD, 1, ALL_OPEN | UNITS},
    {"near misses of the alarms' homes", near_alarms, OWN, 1, 0, SPREAD, 1, ALL_OPEN | UNITS},
    {"positions anywhere, all open, a list", positions_anywhere, OTHERS, 1, 0, SPREAD, 8, ALL_OPEN | UNITS},
    {"strip out of order", strip_out_of_order, OTHERS, 1, 0, SPREAD, 8, (ALL_OPEN & ~(IN_ROUND | PROMISED)) | UNITS},
};

static uint8_t rows[KAGUTIN_BAND_SIZE * KAGUTIN_MAX_BANDS];

/* Rows that rise but for the last two, the dearest order. */
static void make_rows(void)
{
    unsigned i;

    for (i = 0; i < KAGUTIN_MAX_BANDS; i++) {
        unsigned band = i < KAGUTIN_MAX_BANDS - 2 ? i : 2 * KAGUTIN_MAX_BANDS - 3 - i, from = STEP_MM * band;
        unsigned to = band == KAGUTIN_MAX_BANDS - 1 ? KAGUTIN_DEPTHS - 1 : from + STEP_MM - 1;
        uint8_t *row = rows + KAGUTIN_BAND_SIZE * i;

        row[0] = (uint8_t)(from & 0xff);
        row[1] = (uint8_t)(from >> 8);
        row[2] = (uint8_t)(to & 0xff);
        row[3] = (uint8_t)(to >> 8);
        row[4] = 1;
    }
}

static void done(uint64_t code)
{
    if (code)
        exit(1);
}

static void commit_tables(bool again)
{
    uint16_t i;

    done(kagutin_bands_set(LENT, LENT_BATCH, rows, sizeof rows, OWNER).code);
    if (again) {
        done(kagutin_pump_stop(LENT, LENT_BATCH, OWNER, RUNNING, 1).code);
        done(kagutin_alarm_clear(LENT, LENT_BATCH, OWNER, OPEN_ALARMS - 1).code);
    }
    done(kagutin_pump_start(LENT, LENT_BATCH, OWNER, RUNNING, 1).code);
    for (i = again ? OPEN_ALARMS - 1 : 0; i < OPEN_ALARMS; i++)
        done(kagutin_alarm_arrive(LENT, LENT_BATCH, OWNER, i, 1 + i % 9, 1000u - i).code);
}

static void nothing(void)
{
}

static void last_idle(void)
{
    kagutin_abort(LENT_AREAS, LENT_STATE, LAST);
}

#define RUN(name, call)                                                                                                          \
    static uint64_t name(void)                                                                                                   \
    {                                                                                                                            \
        return (call).code;                                                                                                      \
    }

RUN(bands_set, kagutin_bands_set(LENT, LENT_BATCH, rows, sizeof rows, LAST))
RUN(bands_set_open, kagutin_bands_set(LENT, LENT_BATCH, rows, sizeof rows, OWNER))
RUN(bands_look_up, kagutin_bands_look_up(LENT, OWNER, STEP_MM *(KAGUTIN_MAX_BANDS - 2)))
RUN(pump_start, kagutin_pump_start(LENT, LENT_BATCH, LAST, PUMP, 2))
RUN(pump_start_open, kagutin_pump_start(LENT, LENT_BATCH, OWNER, PUMP, 2))
RUN(pump_stop, kagutin_pump_stop(LENT, LENT_BATCH, LAST, RUNNING, 2))
RUN(pump_stop_open, kagutin_pump_stop(LENT, LENT_BATCH, OWNER, RUNNING, 2))
RUN(pump_hours, kagutin_pump_hours(LENT, OWNER, RUNNING))
RUN(pump_services, kagutin_pump_services(LENT, OWNER, RUNNING, 60))
RUN(alarm_arrive, kagutin_alarm_arrive(LENT, LENT_BATCH, LAST, 100, 1, 2))
RUN(alarm_arrive_open, kagutin_alarm_arrive(LENT, LENT_BATCH, OWNER, 100, 1, 2))
RUN(alarm_clear, kagutin_alarm_clear(LENT, LENT_BATCH, LAST, OPEN_ALARMS - 1))
RUN(alarm_clear_open, kagutin_alarm_clear(LENT, LENT_BATCH, OWNER, OPEN_ALARMS - 1))
RUN(alarm_gravest, kagutin_alarm_gravest(LENT, OWNER))

static const struct worst_call calls[] = {
    {"bands_set", "", last_idle, bands_set},
    {"bands_set", "with one open", nothing, bands_set_open},
    {"bands_look_up", "", nothing, bands_look_up},
    {"pump_start", "", last_idle, pump_start},
    {"pump_start", "with one open", nothing, pump_start_open},
    {"pump_stop", "", last_idle, pump_stop},
    {"pump_stop", "with one open", nothing, pump_stop_open},
    {"pump_hours", "", nothing, pump_hours},
    {"pump_services", "", nothing, pump_services},
    {"alarm_arrive", "", last_idle, alarm_arrive},
    {"alarm_arrive", "with one open", nothing, alarm_arrive_open},
    {"alarm_clear", "", last_idle, alarm_clear},
    {"alarm_clear", "with one open", nothing, alarm_clear_open},
    {"alarm_gravest", "", nothing, alarm_gravest},
};

static bool each_call(const struct worst_log *log, char **cases, bool make)
{
    const char *kind = log->damage ? "damaged" : "valid";
    size_t i;

    for (i = 0; i < sizeof calls / sizeof *calls; i++) {
        if (!worst_wanted(log, &calls[i], kind, cases))
            continue;
        if (!make)
            return true;
        worst_restore();
        calls[i].prepare();
        worst_count(log, &calls[i], kind);
    }
    return false;
}

int main(int count, char **words)
{
    make_rows();
    worst_units = commit_tables;
    return worst_go(count, words, logs, sizeof logs / sizeof *logs, each_call);
}
