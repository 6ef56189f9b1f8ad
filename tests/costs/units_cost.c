/*
 * Calls on units whose instructions callgrind counts: units_cost CASE makes a
 * store of 1,024 groups and 64 homes in memory and ends with the call, units_cost
 * CASE list commits a list of rights first. Without words it prints each case,
 * the function whose last call counts and the most instructions it may take.
 */
#include <stdio.h>
#include <stdlib.h>
#include <string.h>

#include "kagutin_alarms.h"
#include "kagutin_bands.h"
#include "kagutin_chains.h"
#include "kagutin_hours.h"
#include "kagutin_rights.h"

enum { GROUPS = 1024, HOMES = 64, WRITER = 1, BATCH = 1 << 20 };

static uint8_t log_copy[KAGUTIN_HEADER_SIZE + KAGUTIN_GROUP_SIZE * GROUPS], area[KAGUTIN_BLOCK_SIZE * HOMES];
static uint8_t state[KAGUTIN_STATE_SIZE], newest[KAGUTIN_POSITION_SIZE * HOMES], batch[BATCH];

#define COPIES log_copy, sizeof log_copy, area, sizeof area, state, sizeof state, newest, sizeof newest

static void done(const char *what, uint64_t code)
{
    if (code == 0)
        return;
    fprintf(stderr, "units_cost: %s answers %llu\n", what, (unsigned long long)code);
    exit(1);
}

static void commit_list(void)
{
    struct kgt_rights list;

    kgt_rights_clear(&list);
    kgt_rights_allow_store(&list, WRITER, 12, HOMES - 12);
    kgt_rights_allow_read(&list, WRITER, 12, HOMES - 12);
    done("the list", kagutin_transact(COPIES, list.bytes, sizeof list.bytes, batch, sizeof batch, 0, KGT_RIGHTS_HOME).code);
}

/* A band of 312 mm, the last of the 32 to 9,999. */
static void put_row(uint8_t *row, unsigned band)
{
    unsigned from = 312 * band, to = band == KAGUTIN_MAX_BANDS - 1 ? KAGUTIN_DEPTHS - 1 : from + 311;

    row[0] = (uint8_t)(from & 0xff);
    row[1] = (uint8_t)(from >> 8);
    row[2] = (uint8_t)(to & 0xff);
    row[3] = (uint8_t)(to >> 8);
    row[4] = (uint8_t)(band % (KAGUTIN_MAX_BAND_PUMPS + 1));
}

/* Swapped: rising but for the last two, so that only the last row tells it. */
enum order { RISING, FALLING, SWAPPED };

static unsigned band_of(enum order order, unsigned row)
{
    if (order == FALLING)
        return KAGUTIN_MAX_BANDS - 1 - row;
    return order == SWAPPED && row >= KAGUTIN_MAX_BANDS - 2 ? 2 * KAGUTIN_MAX_BANDS - 3 - row : row;
}

static void set_table(enum order order)
{
    uint8_t rows[KAGUTIN_BAND_SIZE * KAGUTIN_MAX_BANDS];
    unsigned i;

    for (i = 0; i < KAGUTIN_MAX_BANDS; i++)
        put_row(rows + KAGUTIN_BAND_SIZE * i, band_of(order, i));
    done("the table", kagutin_bands_set(COPIES, batch, sizeof batch, rows, sizeof rows, WRITER).code);
}

/* Of a depth whose row stands last. */
static void look_up(enum order order)
{
    set_table(order);
    done("the lookup", kagutin_bands_look_up(COPIES, WRITER, 312 * (uint64_t)band_of(order, KAGUTIN_MAX_BANDS - 1)).code);
}

static void rising(void)
{
    look_up(RISING);
}
static void falling(void)
{
    look_up(FALLING);
}
static void swapped(void)
{
    look_up(SWAPPED);
}
static void set_rising(void)
{
    set_table(RISING);
}
static void set_falling(void)
{
    set_table(FALLING);
}
static void set_swapped(void)
{
    set_table(SWAPPED);
}

static void arrive(unsigned alarms)
{
    unsigned i;

    for (i = 0; i < alarms; i++)
        done("the arrival", kagutin_alarm_arrive(COPIES, batch, sizeof batch, WRITER, (uint16_t)i, 1 + i % 9, 1000 - i).code);
}

static void arrivals(void)
{
    arrive(41);
}

static void gravest(void)
{
    arrive(40);
    done("the gravest", kagutin_alarm_gravest(COPIES, WRITER).code);
}

static void start(void)
{
    done("the start", kagutin_pump_start(COPIES, batch, sizeof batch, WRITER, 3, 1000).code);
}

static void hours(void)
{
    start();
    done("the hours", kagutin_pump_hours(COPIES, WRITER, 3).code);
}

static const struct {
    const char *name, *function;
    unsigned most;
    void (*run)(void);
} cases[] = {
    {"lookup-rising", "kagutin_bands_look_up", 2500, rising},
    {"lookup-falling", "kagutin_bands_look_up", 10000, falling},
    {"lookup-swapped", "kagutin_bands_look_up", 10000, swapped},
    {"set-rising", "kagutin_bands_set", 20000, set_rising},
    {"set-falling", "kagutin_bands_set", 20000, set_falling},
    {"set-swapped", "kagutin_bands_set", 20000, set_swapped},
    {"gravest", "kagutin_alarm_gravest", 800, gravest},
    {"arrival", "kagutin_alarm_arrive", 20000, arrivals},
    {"start", "kagutin_pump_start", 20000, start},
    {"hours", "kagutin_pump_hours", 20000, hours},
};

int main(int count, char **words)
{
    size_t i;

    if (count > 1) {
        done("the format", kagutin_format(log_copy, sizeof log_copy, area, sizeof area, batch, sizeof batch).code);
        done("the opening", kagutin_open(COPIES, batch, sizeof batch).code);
        if (count > 2)
            commit_list();
    }
    for (i = 0; i < sizeof cases / sizeof cases[0]; i++) {
        if (count == 1)
            printf("%s %s %u\n", cases[i].name, cases[i].function, cases[i].most);
        else if (strcmp(words[1], cases[i].name) == 0)
            cases[i].run();
    }
    return 0;
}
