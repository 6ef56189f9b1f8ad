/*
 * Depth bands, pump hours and alarms on a store object: each call takes the
 * lock once, calls the library and runs its batch, as kgt_commit does. kagutin_bands.h,
 * kagutin_hours.h and kagutin_alarms.h have the promises and the numbers.
 *
 * The writer must have nothing open: each event is a transaction of its own. It
 * is durable once kgt_sync's mark reaches its ticket. If the log is full the
 * calls make room once and try again; with answer 8 holder is then the writer
 * that holds the log, and 10 means that the log is worn out. Answers 64 to 67
 * are the object's. Replies are read as kagutin_store.h says: unless a call is
 * done, its numbers are KGT_NOT_TOLD. [S-80]
 */
#ifndef KAGUTIN_UNITS_H
#define KAGUTIN_UNITS_H

#include "kagutin_alarms.h"
#include "kagutin_bands.h"
#include "kagutin_hours.h"
#include "kagutin_store.h"

#ifdef __cplusplus
extern "C" {
#endif

/* Rows as in kagutin_bands.h, KAGUTIN_BAND_SIZE bytes each. */
struct kgt_table {
    uint64_t code;
    uint64_t ticket; /* KGT_NOT_TOLD unless done */
    uint64_t mm;     /* 12, 13: the lowest millimetre in no row, in two or more; else KGT_NOT_TOLD */
    uint64_t holder;
    int error;
};

struct kgt_table kgt_bands_set(struct kagutin *store, uint64_t writer, const uint8_t *rows, size_t size);

struct kgt_band {
    uint64_t code;
    uint64_t from, to; /* millimetres, inclusive */
    uint64_t pumps;    /* that run: 0 to 4; KGT_NOT_TOLD, which is no number of pumps, unless done */
    int error;
};

struct kgt_band kgt_bands_look_up(struct kagutin *store, uint64_t writer, uint64_t mm);

struct kgt_ticket kgt_pump_start(struct kagutin *store, uint64_t writer, uint64_t pump, uint32_t second);
struct kgt_ticket kgt_pump_stop(struct kagutin *store, uint64_t writer, uint64_t pump, uint32_t second);

struct kgt_hours {
    uint64_t code;
    uint64_t starts, seconds; /* of the finished runs */
    int error;
};

struct kgt_services {
    uint64_t code;
    uint64_t due;  /* whole services, one each interval of run seconds */
    uint64_t left; /* seconds left over, below the interval */
    int error;
};

struct kgt_hours kgt_pump_hours(struct kagutin *store, uint64_t writer, uint64_t pump);
struct kgt_services kgt_pump_services(struct kagutin *store, uint64_t writer, uint64_t pump, uint64_t interval);

struct kgt_ticket kgt_alarm_arrive(struct kagutin *store, uint64_t writer, uint16_t identity, uint64_t alarm_class,
                                   uint32_t second);
struct kgt_ticket kgt_alarm_clear(struct kagutin *store, uint64_t writer, uint16_t identity);

/* What a panel shows: an alarm if shown is KGT_ALARM_OPEN, "no alarm" only for KGT_NONE_OPEN, else that it does not know. */
enum kgt_panel { KGT_ALARM_NOT_TOLD, KGT_NONE_OPEN, KGT_ALARM_OPEN };

struct kgt_alarm {
    uint64_t code;
    enum kgt_panel shown;
    uint64_t identity, alarm_class, second; /* KGT_NOT_TOLD unless an alarm is open */
    int error;
};

struct kgt_alarm kgt_alarm_gravest(struct kagutin *store, uint64_t writer);

#ifdef __cplusplus
}
#endif

#endif
