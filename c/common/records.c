#include "records.h"

#include <string.h>

#include "kagutin_seal.h"

enum { BLOCK = 64, DEPTHS = 10000, MOST_PUMPS = 4, MOST_CLASS = 9 };

static uint32_t number(const uint8_t *bytes, size_t width)
{
    uint32_t value = 0;

    while (width-- > 0)
        value = value << 8 | bytes[width];
    return value;
}

static bool zeros(const uint8_t *bytes, size_t from, size_t to)
{
    for (; from < to; from++)
        if (bytes[from])
            return false;
    return true;
}

const char *record_pump(const uint8_t *block, struct pump_record *pump)
{
    pump->starts = number(block, 4);
    pump->seconds = number(block + 4, 4);
    pump->second = number(block + 8, 4);
    pump->running = block[12] == 1;
    if (block[12] > 1)
        return "byte 12 is neither 0 nor 1";
    if (!zeros(block, 13, BLOCK))
        return "bytes behind 12 are not zero";
    if (pump->starts == 0 && !zeros(block, 4, 13))
        return "no starts, but seconds";
    if (pump->seconds > pump->second)
        return "more run seconds than its clock has counted";
    return NULL;
}

bool record_has_owner(size_t home)
{
    return (home >= 8 && home < RECORD_BANDS_HOME + RECORD_BANDS_HOMES)
        || (home >= RECORD_PUMP_HOME && home < RECORD_ALARMS_HOME + RECORD_ALARMS_HOMES);
}

bool record_seal_broken(size_t home, const uint8_t *block)
{
    return !record_has_owner(home) && kagutin_look_at_seal(block) == KAGUTIN_SEAL_BROKEN;
}

/* ---- depth bands ---- */

static bool row_fits(const struct band_record *row)
{
    return row->from <= row->to && row->to < DEPTHS && row->pumps <= MOST_PUMPS;
}

/* Is every millimetre in exactly one row? Then, and only then, the rows' lengths add up to all and no two meet. */
static bool rows_cover(const struct bands_record *bands)
{
    size_t i, j, covered = 0;

    for (i = 0; i < bands->count; i++) {
        covered += bands->rows[i].to - bands->rows[i].from + 1;
        for (j = 0; j < i; j++)
            if (bands->rows[i].from <= bands->rows[j].to && bands->rows[j].from <= bands->rows[i].to)
                return false;
    }
    return covered == DEPTHS;
}

const char *record_bands(const uint8_t *blocks, struct bands_record *bands)
{
    size_t i;

    memset(bands, 0, sizeof *bands);
    if (blocks[0] > RECORD_MOST_BANDS)
        return "more than 32 rows";
    for (i = 0; i < blocks[0]; i++) {
        const uint8_t *row = blocks + 1 + 5 * i;
        struct band_record *band = &bands->rows[i];

        band->from = number(row, 2);
        band->to = number(row + 2, 2);
        band->pumps = row[4];
        if (!row_fits(band))
            return "a row is out of range";
    }
    bands->count = blocks[0];
    if (bands->count && !rows_cover(bands))
        return "a millimetre lies in no row, or in two";
    if (!zeros(blocks, 1 + 5 * bands->count, BLOCK * RECORD_BANDS_HOMES))
        return "bytes behind the rows are not zero";
    return NULL;
}

/* ---- alarms ---- */

bool alarm_is_graver(const struct alarm_record *one, const struct alarm_record *other)
{
    if (one->alarm_class != other->alarm_class)
        return one->alarm_class < other->alarm_class;
    if (one->second != other->second)
        return one->second < other->second;
    return one->identity < other->identity;
}

static struct alarm_record read_alarm(const uint8_t *bytes)
{
    struct alarm_record alarm;

    alarm.identity = number(bytes, 2);
    alarm.alarm_class = bytes[2];
    alarm.second = number(bytes + 3, 4);
    return alarm;
}

static bool same(const struct alarm_record *one, const struct alarm_record *other)
{
    return one->identity == other->identity && one->alarm_class == other->alarm_class && one->second == other->second;
}

const char *record_alarms(const uint8_t *blocks, struct alarms_record *alarms)
{
    struct alarm_record gravest = {0, 0, 0};
    size_t i, j;

    memset(alarms, 0, sizeof *alarms);
    if (blocks[0] > RECORD_MOST_ALARMS)
        return "more than 48 alarms";
    alarms->count = blocks[0];
    alarms->gravest = read_alarm(blocks + 1);
    for (i = 0; i < alarms->count; i++) {
        struct alarm_record *alarm = &alarms->open[i];

        *alarm = read_alarm(blocks + 8 + 7 * i);
        if (alarm->alarm_class < 1 || alarm->alarm_class > MOST_CLASS)
            return "an alarm's class is not from 1 to 9";
        for (j = 0; j < i; j++)
            if (alarms->open[j].identity == alarm->identity)
                return "two alarms have one identity";
        if (i == 0 || alarm_is_graver(alarm, &gravest))
            gravest = *alarm;
    }
    if (!same(&gravest, &alarms->gravest))
        return "the gravest that is kept is not that of the list";
    if (!zeros(blocks, 8 + 7 * alarms->count, BLOCK * RECORD_ALARMS_HOMES))
        return "bytes behind the alarms are not zero";
    return NULL;
}
