/*
 * Depth bands, pump hours and alarms on a store object, in memory that loses
 * power: held to the events whose commits came back. units_check [SEED]; also
 * units_check --image FILE DAYS PUMPS, which makes an image with the events of so
 * many days.
 */
/* Clauses: [S-80, S-87] */
#include <stdio.h>
#include <stdlib.h>
#include <string.h>

#include "kagutin_file.h"
#include "kagutin_memory.h"
#include "kagutin_units.h"

enum { GROUPS = 8, HOMES = 30, EVENTS = 20000, PUMP_WRITER = 1, ALARM_WRITER = 2, TABLE_WRITER = 3 };

/* What is known of one moment: its ticket, and all figures after it. */
struct known {
    uint64_t ticket;
    uint64_t starts[KAGUTIN_PUMPS], seconds[KAGUTIN_PUMPS], since[KAGUTIN_PUMPS]; /* since: the last event */
    uint64_t table;
    bool running[KAGUTIN_PUMPS];
    struct {
        uint64_t alarm_class, second;
    } alarms[64]; /* by identity; class 0: not open */
};

static struct known moments[EVENTS + 1];
static size_t last; /* the moment that counts */
static uint32_t clock_now;
static uint64_t seed, events_done, events_lost, cuts;

static uint64_t random_below(uint64_t limit)
{
    seed = seed * UINT64_C(6364136223846793005) + UINT64_C(1442695040888963407);
    return (seed >> 33) % limit;
}

static void fail(const char *what, uint64_t got, uint64_t wanted)
{
    printf("units_check: %s: %llu, wanted %llu (event %lu)\n", what, (unsigned long long)got, (unsigned long long)wanted,
           (unsigned long)last);
    exit(1);
}

static void same(const char *what, uint64_t got, uint64_t wanted)
{
    if (got != wanted)
        fail(what, got, wanted);
}

/* Two rows that part the depths at a millimetre told by the table's number. */
static size_t make_table(uint64_t number, uint8_t *rows)
{
    unsigned edge = (unsigned)(number % 9998) + 1;
    const unsigned ends[2][3] = {{0, edge - 1, 0}, {edge, 9999, 1}};
    size_t i;

    for (i = 0; i < 2; i++) {
        uint8_t *row = rows + KAGUTIN_BAND_SIZE * i;

        row[0] = (uint8_t)ends[i][0];
        row[1] = (uint8_t)(ends[i][0] >> 8);
        row[2] = (uint8_t)ends[i][1];
        row[3] = (uint8_t)(ends[i][1] >> 8);
        row[4] = (uint8_t)(number % 4 + ends[i][2]);
    }
    return 2 * KAGUTIN_BAND_SIZE;
}

static void check_table(struct kagutin *store, const struct known *known)
{
    uint64_t edge = known->table % 9998 + 1;
    struct kgt_band low = kgt_bands_look_up(store, 5, edge - 1), high = kgt_bands_look_up(store, 5, edge);

    same("code of a lookup", low.code, known->table ? 0 : KAGUTIN_BAD_BANDS);
    if (known->table == 0)
        return;
    same("end of the lower row", low.to, edge - 1);
    same("begin of the upper row", high.from, edge);
    same("pumps", high.pumps, known->table % 4 + 1);
}

static void check_gravest(struct kagutin *store, const struct known *known)
{
    struct kgt_alarm gravest = kgt_alarm_gravest(store, 5);
    uint64_t best = 64, i;

    for (i = 0; i < 64; i++)
        if (known->alarms[i].alarm_class
            && (best == 64 || known->alarms[i].alarm_class < known->alarms[best].alarm_class
                || (known->alarms[i].alarm_class == known->alarms[best].alarm_class
                    && known->alarms[i].second < known->alarms[best].second)))
            best = i;
    same("code of the gravest", gravest.code, 0);
    same("shown", gravest.shown, best == 64 ? KGT_NONE_OPEN : KGT_ALARM_OPEN);
    same("gravest identity", gravest.identity, best == 64 ? KGT_NOT_TOLD : best);
    same("gravest class", gravest.alarm_class, best == 64 ? KGT_NOT_TOLD : known->alarms[best].alarm_class);
    same("gravest second", gravest.second, best == 64 ? KGT_NOT_TOLD : known->alarms[best].second);
}

static void check_all(struct kagutin *store)
{
    const struct known *known = &moments[last];
    uint64_t pump;

    for (pump = 0; pump < KAGUTIN_PUMPS; pump++) {
        struct kgt_hours hours = kgt_pump_hours(store, 5, pump);
        struct kgt_services due = kgt_pump_services(store, 5, pump, 3600);

        same("code of hours", hours.code, 0);
        same("starts", hours.starts, known->starts[pump]);
        same("seconds", hours.seconds, known->seconds[pump]);
        same("services", due.due * 3600 + due.left, known->seconds[pump]);
    }
    check_table(store, known);
    check_gravest(store, known);
}

static struct kgt_ticket pump_event(struct kagutin *store, struct known *next)
{
    uint64_t pump = random_below(KAGUTIN_PUMPS);

    if (next->running[pump]) {
        next->running[pump] = false;
        next->seconds[pump] += clock_now - next->since[pump];
        next->since[pump] = clock_now;
        same("start while running", kgt_pump_start(store, PUMP_WRITER, pump, clock_now).code, KAGUTIN_WRONG_PUMP_STATE);
        return kgt_pump_stop(store, PUMP_WRITER, pump, clock_now);
    }
    next->running[pump] = true;
    next->starts[pump]++;
    next->since[pump] = clock_now;
    same("stop while idle", kgt_pump_stop(store, PUMP_WRITER, pump, clock_now).code, KAGUTIN_WRONG_PUMP_STATE);
    return kgt_pump_start(store, PUMP_WRITER, pump, clock_now);
}

static struct kgt_ticket alarm_event(struct kagutin *store, struct known *next)
{
    uint64_t identity = random_below(40), alarm_class = 1 + random_below(9);

    if (next->alarms[identity].alarm_class) {
        next->alarms[identity].alarm_class = 0;
        same("open already", kgt_alarm_arrive(store, ALARM_WRITER, (uint16_t)identity, 3, clock_now).code, KAGUTIN_BAD_ALARM);
        return kgt_alarm_clear(store, ALARM_WRITER, (uint16_t)identity);
    }
    next->alarms[identity].alarm_class = alarm_class;
    next->alarms[identity].second = clock_now;
    same("class 10", kgt_alarm_arrive(store, ALARM_WRITER, (uint16_t)identity, 10, clock_now).code, KAGUTIN_BAD_ALARM);
    return kgt_alarm_arrive(store, ALARM_WRITER, (uint16_t)identity, alarm_class, clock_now);
}

static struct kgt_ticket table_event(struct kagutin *store, struct known *next)
{
    uint8_t rows[2 * KAGUTIN_BAND_SIZE];
    struct kgt_ticket ticket;
    struct kgt_table set;
    size_t size;

    next->table = last + 1;
    size = make_table(next->table, rows);
    rows[2]--; /* a gap of one millimetre, if the first row had two */
    if (rows[2] != 0xff && next->table % 9998 > 1) {
        set = kgt_bands_set(store, TABLE_WRITER, rows, size);
        same("a gap", set.code, KAGUTIN_BAND_GAP);
        same("its millimetre", set.mm, next->table % 9998);
        same("no ticket", set.ticket, KGT_NOT_TOLD);
    }
    make_table(next->table, rows);
    set = kgt_bands_set(store, TABLE_WRITER, rows, size);
    ticket.code = set.code;
    ticket.ticket = set.ticket;
    ticket.holder = set.holder;
    ticket.error = set.error;
    return ticket;
}

/* One event; false once power is gone. */
static bool one_event(struct kagutin *store)
{
    struct known next = moments[last];
    struct kgt_ticket reply;
    uint64_t kind = random_below(10);

    clock_now += (uint32_t)random_below(600);
    reply = kind < 6 ? pump_event(store, &next) : kind < 9 ? alarm_event(store, &next) : table_event(store, &next);
    next.ticket = reply.ticket;
    moments[last + 1] = next; /* after a failure it may have come to lasting memory, or not */
    if (reply.code == KGT_DRIVER_FAILED)
        return false;
    same("code of an event", reply.code, 0);
    last++;
    events_done++;
    return true;
}

/* ---- after a cut ---- */

static uint64_t number(const uint8_t *bytes, int width)
{
    uint64_t value = 0;

    while (width-- > 0)
        value = value << 8 | bytes[width];
    return value;
}

static bool pumps_fit(struct kagutin *store, const struct known *known)
{
    uint8_t block[KAGUTIN_BLOCK_SIZE];
    uint64_t pump;

    for (pump = 0; pump < KAGUTIN_PUMPS; pump++) {
        same("read of a pump", kgt_read(store, 5, KAGUTIN_PUMP_HOME + pump, block).code, 0);
        if (number(block, 4) != known->starts[pump] || number(block + 4, 4) != known->seconds[pump]
            || number(block + 8, 4) != known->since[pump] || (block[12] != 0) != known->running[pump])
            return false;
    }
    return true;
}

static bool alarms_fit(struct kagutin *store, const struct known *known)
{
    uint8_t list[KAGUTIN_ALARMS_HOMES * KAGUTIN_BLOCK_SIZE];
    uint64_t i, open = 0;

    for (i = 0; i < KAGUTIN_ALARMS_HOMES; i++)
        same("read of alarms", kgt_read(store, 5, KAGUTIN_ALARMS_HOME + i, list + KAGUTIN_BLOCK_SIZE * i).code, 0);
    for (i = 0; i < 64; i++)
        open += known->alarms[i].alarm_class != 0;
    if (list[0] != open)
        return false;
    for (i = 0; i < open; i++) {
        const uint8_t *alarm = list + 8 + 7 * i;
        uint64_t identity = number(alarm, 2);

        if (identity >= 64 || known->alarms[identity].alarm_class != alarm[2]
            || known->alarms[identity].second != number(alarm + 3, 4))
            return false;
    }
    return true;
}

static bool table_fits(struct kagutin *store, const struct known *known)
{
    struct kgt_band band = kgt_bands_look_up(store, 5, 9999);

    return known->table == 0 ? band.code == KAGUTIN_BAD_BANDS : band.code == 0 && band.from == known->table % 9998 + 1;
}

/* All three units show the same moment, one from the last durable one on. */
static void find_moment(struct kagutin *store, size_t durable, size_t newest)
{
    size_t at = newest + 1;

    while (at-- > durable) {
        const struct known *known = &moments[at];

        if (!pumps_fit(store, known) || !alarms_fit(store, known) || !table_fits(store, known))
            continue;
        events_lost += newest - at;
        last = at;
        moments[last].ticket = 0;
        check_all(store);
        return;
    }
    fail("no moment fits, durable", durable, newest);
}

static bool lands(void *context, size_t at)
{
    (void)context, (void)at;
    return random_below(2) == 0;
}

static void play(struct kgt_memory *memory, struct kagutin *store)
{
    size_t durable = 0, newest;

    while (last < EVENTS - 1) {
        bool powered = true;

        kgt_memory_stop_after(memory, random_below(4) ? UINT64_MAX : random_below(20000));
        newest = last;
        while (powered && last < EVENTS - 1 && random_below(60)) {
            powered = one_event(store);
            newest = powered ? last : last + 1;
            if (powered && random_below(8) == 0) {
                struct kgt_mark reply = kgt_sync(store);

                powered = reply.code == KAGUTIN_DONE;
                if (reply.mark >= moments[last].ticket)
                    durable = last;
            }
            if (powered && random_below(16) == 0)
                check_all(store);
        }
        kgt_memory_cut(memory, lands, NULL);
        cuts++;
        same("opening", kgt_open(store).code, 0);
        find_moment(store, durable, newest);
        durable = last;
    }
}

/* The calls before opening, by a writer with something open, and in a log that one writer holds. */
static void check_refusals(struct kagutin *store)
{
    uint8_t rows[2 * KAGUTIN_BAND_SIZE], block[KAGUTIN_BLOCK_SIZE] = {0};
    size_t size = make_table(5, rows);
    struct kgt_table reply;
    uint64_t i;

    same("closed", kgt_pump_start(store, 1, 0, 0).code, KGT_CLOSED);
    same("closed, reading", kgt_pump_hours(store, 1, 0).code, KGT_CLOSED);
    same("opening", kgt_open(store).code, 0);
    same("begin", kgt_begin(store, 1).code, 0);
    same("not idle", kgt_pump_start(store, 1, 0, 0).code, KAGUTIN_NOT_IDLE);
    same("pump 8", kgt_pump_start(store, 1, 8, 0).code, KAGUTIN_BAD_PUMP);
    same("interval 0", kgt_pump_services(store, 1, 0, 0).code, KAGUTIN_BAD_PUMP);
    for (i = 0; kgt_store(store, 1, i % 2, block).code == KAGUTIN_DONE; i++)
        ;
    reply = kgt_bands_set(store, 2, rows, size);
    same("a held log", reply.code, KAGUTIN_FULL);
    same("its holder", reply.holder, 1);
    same("abort", kgt_abort(store, 1).code, 0);
    same("room is made", kgt_alarm_arrive(store, 2, 7, 1, 1).code, 0);
    same("clearing", kgt_alarm_clear(store, 2, 7).code, 0);
    same("writer 8", kgt_alarm_gravest(store, 8).code, KAGUTIN_BAD_WRITER);
}

/* ---- the lock ---- */

static int locked;
static bool lock_fails;

static int take_lock(void *context)
{
    (void)context;
    if (lock_fails)
        return 1;
    same("locks held", (uint64_t)locked++, 0);
    return 0;
}

static void give_lock(void *context)
{
    (void)context;
    locked--;
}

static void check_lock(struct kagutin *store)
{
    lock_fails = true;
    same("no lock for an event", kgt_pump_start(store, 1, 0, 0).code, KGT_LOCK_FAILED);
    same("no lock for a lookup", kgt_bands_look_up(store, 1, 0).code, KGT_LOCK_FAILED);
    same("no lock for services", kgt_pump_services(store, 1, 0, 5).code, KGT_LOCK_FAILED);
    same("no lock for the gravest", kgt_alarm_gravest(store, 1).code, KGT_LOCK_FAILED);
    lock_fails = false;
}

static int play_in_memory(void)
{
    static uint8_t lasting[KGT_LOG_SIZE(GROUPS) + KGT_HOMES_SIZE(HOMES)], written[sizeof lasting];
    static uint8_t memory[KGT_MEMORY_SIZE(GROUPS, HOMES)], scratch[KGT_FORMAT_SIZE(GROUPS, HOMES)];
    static struct kgt_memory medium;
    static struct kagutin store;

    kgt_memory_init(&medium, lasting, written, GROUPS, HOMES);
    kgt_memory_keep_blocks(&medium);
    kgt_init(&store, memory, sizeof memory, GROUPS, HOMES, kgt_memory_driver(&medium));
    same("format", kgt_format(&store, scratch, sizeof scratch).code, 0);
    kgt_set_lock(&store, take_lock, give_lock, NULL);
    check_refusals(&store);
    check_lock(&store);
    play(&medium, &store);
    same("locks left", (uint64_t)locked, 0);
    printf("units_check: %llu events, %llu cuts, %llu events lost, each opening at one moment of all units\n",
           (unsigned long long)events_done, (unsigned long long)cuts, (unsigned long long)events_lost);
    return events_lost == 0;
}

/* ---- an image to look at ---- */

/* Pumps that share the work unevenly, for so many days; pump 0 leads. */
static int make_image(const char *path, unsigned days, unsigned pumps)
{
    static uint8_t memory[KGT_MEMORY_SIZE(16, 32)];
    struct kagutin store;
    struct kgt_file file;
    uint32_t now = 0;
    uint64_t i;

    if (!kgt_file_create(&file, path, 16, 32)) {
        fprintf(stderr, "units_check: %s\n", file.message);
        return 1;
    }
    kgt_init(&store, memory, sizeof memory, 16, 32, kgt_file_driver(&file));
    same("opening", kgt_open(&store).code, 0);
    while (now < 86400 * days) {
        uint64_t pump = random_below(pumps) * random_below(4) / 3;

        same("start", kgt_pump_start(&store, PUMP_WRITER, pump, now).code, 0);
        now += 1800 + (uint32_t)random_below(40000);
        same("stop", kgt_pump_stop(&store, PUMP_WRITER, pump, now).code, 0);
        now += (uint32_t)random_below(7200);
    }
    for (i = 0; i < 3; i++)
        same("arrival", kgt_alarm_arrive(&store, ALARM_WRITER, (uint16_t)(40 + i), 5 - i, now).code, 0);
    same("sync", kgt_sync(&store).code, 0);
    kgt_file_close(&file);
    return 0;
}

int main(int count, char **words)
{
    seed = 1;
    if (count == 5 && strcmp(words[1], "--image") == 0) {
        seed = strtoull(words[3], NULL, 10) + 1;
        return make_image(words[2], (unsigned)strtoul(words[3], NULL, 10), (unsigned)strtoul(words[4], NULL, 10));
    }
    if (count > 1)
        seed = strtoull(words[1], NULL, 10);
    return play_in_memory();
}
