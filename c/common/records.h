/* What the homes of pumps, depth bands and alarms hold, by docs/HOMES.md, and whether the calls could have stored it. */
#ifndef COMMON_RECORDS_H
#define COMMON_RECORDS_H

#include <stdbool.h>
#include <stddef.h>
#include <stdint.h>

enum {
    RECORD_BANDS_HOME = 12,
    RECORD_BANDS_HOMES = 3,
    RECORD_MOST_BANDS = 32,
    RECORD_PUMP_HOME = 16,
    RECORD_PUMPS = 8,
    RECORD_ALARMS_HOME = 24,
    RECORD_ALARMS_HOMES = 6,
    RECORD_MOST_ALARMS = 48
};

struct pump_record {
    uint32_t starts, seconds, second; /* run seconds of finished runs; second of the last event */
    bool running;
};

struct band_record {
    unsigned from, to, pumps;
};

struct alarm_record {
    unsigned identity, alarm_class;
    uint32_t second;
};

struct bands_record {
    size_t count; /* 0: no table */
    struct band_record rows[RECORD_MOST_BANDS];
};

struct alarms_record {
    size_t count;
    struct alarm_record gravest; /* as it is kept; zeros if none is open */
    struct alarm_record open[RECORD_MOST_ALARMS];
};

/* Each reads 64 bytes for each of its homes. Null, or why the calls cannot have stored this; the record is then not to be used. */
const char *record_pump(const uint8_t *block, struct pump_record *pump);
const char *record_bands(const uint8_t *blocks, struct bands_record *bands);
const char *record_alarms(const uint8_t *blocks, struct alarms_record *alarms);

/* Is this the home of the list of rights, bands, pumps or alarms? */
bool record_has_owner(size_t home);

/* Does the block of a home have a seal that does not fit (kagutin_seal.h)? Homes with an owner have none. */
bool record_seal_broken(size_t home, const uint8_t *block);

/* Is the first alarm graver: of a lower class, then earlier, then of a lower identity? */
bool alarm_is_graver(const struct alarm_record *one, const struct alarm_record *other);

#endif
