/* Calls that must be refused, with every lent byte left as it was. */
#include "refusals.h"

#include <string.h>

#include "common/rule.h"
#include "rights.h"
#include "store/kagutin_state_layout.h"

#define LOG(s) (s)->driver.log, (s)->driver.log_size
#define AREA(s) (s)->driver.area, (s)->driver.area_size
#define STATE(s) (s)->driver.state, sizeof(s)->driver.state
#define NEWEST(s) (s)->driver.newest, (s)->driver.newest_size
#define BATCH(s) (s)->driver.batch, (s)->driver.batch_size
#define MEMORY(s) LOG(s), AREA(s), STATE(s), NEWEST(s), BATCH(s)

enum { PARTS = 5 };

struct part {
    uint8_t *bytes;
    size_t size;
};

static void lent_parts(struct station *station, struct part parts[PARTS])
{
    struct driver *driver = &station->driver;

    parts[0] = (struct part){driver->log, driver->log_size};
    parts[1] = (struct part){driver->area, driver->area_size};
    parts[2] = (struct part){driver->state, sizeof driver->state};
    parts[3] = (struct part){driver->newest, driver->newest_size};
    parts[4] = (struct part){driver->batch, driver->batch_size};
}

void refusal_prepare(struct station *station)
{
    struct part parts[PARTS];
    uint8_t *to = station->before;
    int i;

    lent_parts(station, parts);
    for (i = 0; i < PARTS; i++, to += parts[i - 1].size)
        memcpy(to, parts[i].bytes, parts[i].size);
}

void refusal_check(struct station *station, const char *call, struct kagutin_reply reply, uint64_t code)
{
    static const char *const names[] = {"log copy", "data copy", "state", "newest positions", "batch"};
    struct part parts[PARTS];
    const uint8_t *was = station->before;
    int i;

    station->counters.refusals++;
    station->counters.full += code == KAGUTIN_FULL;
    station->counters.store_denied += code == KAGUTIN_STORE_DENIED;
    station->counters.read_denied += code == KAGUTIN_READ_DENIED;
    if (reply.code != code)
        station_mismatch(station, "%s answered %llu, it must be refused with %llu (%s)", call, (unsigned long long)reply.code,
                         (unsigned long long)code, kagutin_answer_text(code));
    if (reply.figure || reply.size)
        station_mismatch(station, "a refused %s gave a figure or a size", call);
    lent_parts(station, parts);
    for (i = 0; i < PARTS; i++, was += parts[i - 1].size)
        if (memcmp(was, parts[i].bytes, parts[i].size) != 0)
            station_mismatch(station, "a refused %s changed the %s", call, names[i]);
}

/* Wrong writers, homes and lengths. */
static void try_arguments(struct station *s)
{
    uint8_t block[KAGUTIN_BLOCK_SIZE] = {0};
    uint64_t writer = 8 + station_random(s, 1000), home = s->driver.homes + station_random(s, 9);
    uint64_t high = (uint64_t)1 << (32 + station_random(s, 32)); /* must not be cut off */

    switch (station_random(s, 8)) {
    case 0: refusal_check(s, "begin", kagutin_begin(LOG(s), AREA(s), STATE(s), writer), KAGUTIN_BAD_WRITER); break;
    case 1: refusal_check(s, "abort", kagutin_abort(LOG(s), AREA(s), STATE(s), high), KAGUTIN_BAD_WRITER); break;
    case 2:
        refusal_check(s, "store", kagutin_store(LOG(s), AREA(s), STATE(s), block, sizeof block, BATCH(s), 0, high),
                      KAGUTIN_BAD_HOME);
        break;
    case 3:
        refusal_check(s, "read", kagutin_read(LOG(s), AREA(s), STATE(s), NEWEST(s), block, sizeof block, 7, home),
                      KAGUTIN_BAD_HOME);
        break;
    case 4:
        refusal_check(s, "read", kagutin_read(LOG(s), AREA(s), STATE(s), NEWEST(s), block, sizeof block - 1, 0, 0),
                      KAGUTIN_BAD_LENGTH);
        break;
    case 5:
        refusal_check(s, "flush", kagutin_flush(s->driver.log, s->driver.log_size - 1, AREA(s), STATE(s), BATCH(s)),
                      KAGUTIN_BAD_LENGTH);
        break;
    case 6:
        refusal_check(s, "confirm", kagutin_confirm(LOG(s), AREA(s), s->driver.state, sizeof s->driver.state - 1),
                      KAGUTIN_BAD_LENGTH);
        break;
    default:
        refusal_check(s, "commit", kagutin_commit(LOG(s), AREA(s), STATE(s), NEWEST(s), BATCH(s), writer), KAGUTIN_BAD_WRITER);
        break;
    }
}

/* Calls out of turn for a writer, idle or open. */
static void try_turns(struct station *s)
{
    unsigned writer = (unsigned)station_random(s, KAGUTIN_WRITERS);
    uint8_t block[KAGUTIN_BLOCK_SIZE] = {0};

    if (s->book.writers[writer].open) {
        refusal_check(s, "begin", kagutin_begin(LOG(s), AREA(s), STATE(s), writer), KAGUTIN_NOT_IDLE);
        refusal_check(s, "reserve", kagutin_reserve(LOG(s), AREA(s), STATE(s), writer, 0), KAGUTIN_NOT_IDLE);
        return;
    }
    refusal_check(s, "reserve", kagutin_reserve(LOG(s), AREA(s), STATE(s), writer, 0), KAGUTIN_NO_PLACES);
    refusal_check(s, "reserve", kagutin_reserve(LOG(s), AREA(s), STATE(s), writer, book_free_places(&s->book) + 1),
                  KAGUTIN_NO_PLACES);
    refusal_check(s, "abort", kagutin_abort(LOG(s), AREA(s), STATE(s), writer), KAGUTIN_NOT_OPEN);
    refusal_check(s, "commit", kagutin_commit(LOG(s), AREA(s), STATE(s), NEWEST(s), BATCH(s), writer), KAGUTIN_NOT_OPEN);
    refusal_check(s, "store",
                  kagutin_store(LOG(s), AREA(s), STATE(s), block, sizeof block, BATCH(s), writer, STATION_OWN(writer)),
                  KAGUTIN_NOT_OPEN);
}

/* Batches one byte too short for a flush, or for a settle or step that writes only a fence. */
static void try_short_batches(struct station *s)
{
    size_t flush = s->book.filled ? KAGUTIN_FLUSH_BATCH : KAGUTIN_FN_SIZE;

    refusal_check(s, "flush", kagutin_flush(LOG(s), AREA(s), STATE(s), s->driver.batch, flush - 1),
                  book_may_flush(&s->book) ? KAGUTIN_SHORT_BATCH : KAGUTIN_PROMISED);
    refusal_check(s, "settle", kagutin_settle(LOG(s), AREA(s), STATE(s), s->driver.batch, 1),
                  s->book.in_round ? KAGUTIN_WRONG_ROUND : KAGUTIN_SHORT_BATCH);
    refusal_check(s, "step_round", kagutin_step_round(LOG(s), AREA(s), STATE(s), s->driver.batch, 1, 1),
                  s->book.in_round ? KAGUTIN_SHORT_BATCH : KAGUTIN_WRONG_ROUND);
}

/* Calls out of turn for a round. */
static void try_rounds(struct station *s)
{
    refusal_check(s, "step_round", kagutin_step_round(LOG(s), AREA(s), STATE(s), BATCH(s), 0), KAGUTIN_WRONG_ROUND);
    if (s->book.in_round)
        refusal_check(s, "begin_round", kagutin_begin_round(LOG(s), AREA(s), STATE(s)), KAGUTIN_WRONG_ROUND);
}

/* A task tries a home that is another's, whether it has a transaction open or not. */
static void try_rights(struct station *s)
{
    unsigned writer = (unsigned)station_random(s, KAGUTIN_WRITERS);
    size_t home = (size_t)station_random(s, STATION_MIN_HOMES);
    uint8_t block[KAGUTIN_BLOCK_SIZE] = {0};

    if (!rights_may_store(s, writer, home))
        refusal_check(s, "store", kagutin_store(LOG(s), AREA(s), STATE(s), block, sizeof block, BATCH(s), writer, home),
                      KAGUTIN_STORE_DENIED);
    if (!rights_may_read(s, writer, home))
        refusal_check(s, "read", kagutin_read(LOG(s), AREA(s), STATE(s), NEWEST(s), block, sizeof block, writer, home),
                      KAGUTIN_READ_DENIED);
}

/* Events of pumps out of turn or too early, alarms that are open or not, and those of another task. */
static void try_events(struct station *s)
{
    unsigned pump = (unsigned)station_random(s, KAGUTIN_PUMPS), alarm = (unsigned)station_random(s, EVENT_ALARMS);
    const struct event_pump *sum = &s->events.newest.pumps[pump];
    bool open = s->events.newest.alarms[alarm].alarm_class;
    uint32_t early = (uint32_t)sum->last - 1;

    refusal_check(s, "pump_start", kagutin_pump_start(MEMORY(s), RUN_HOURS, KAGUTIN_PUMPS, s->second), KAGUTIN_BAD_PUMP);
    refusal_check(s, "pump_stop", kagutin_pump_stop(MEMORY(s), SERVICE, pump, s->second), KAGUTIN_STORE_DENIED);
    refusal_check(s, "alarm_clear", kagutin_alarm_clear(MEMORY(s), RUN_HOURS, (uint16_t)alarm), KAGUTIN_STORE_DENIED);
    if (sum->running)
        refusal_check(s, "pump_start", kagutin_pump_start(MEMORY(s), RUN_HOURS, pump, s->second), KAGUTIN_WRONG_PUMP_STATE);
    else
        refusal_check(s, "pump_stop", kagutin_pump_stop(MEMORY(s), RUN_HOURS, pump, s->second), KAGUTIN_WRONG_PUMP_STATE);
    if (sum->running && sum->last)
        refusal_check(s, "pump_stop", kagutin_pump_stop(MEMORY(s), RUN_HOURS, pump, early), KAGUTIN_BAD_SECOND);
    if (open)
        refusal_check(s, "alarm_arrive", kagutin_alarm_arrive(MEMORY(s), ALARMS, (uint16_t)alarm, 1, s->second),
                      KAGUTIN_BAD_ALARM);
    else
        refusal_check(s, "alarm_clear", kagutin_alarm_clear(MEMORY(s), ALARMS, (uint16_t)alarm), KAGUTIN_BAD_ALARM);
    if (!open && events_open(&s->events.newest) == KAGUTIN_MAX_ALARMS)
        refusal_check(s, "alarm_arrive", kagutin_alarm_arrive(MEMORY(s), ALARMS, (uint16_t)alarm, 1, s->second),
                      KAGUTIN_ALARMS_FULL);
}

/* A state that is out of order, or belongs to other areas. */
static void try_bad_state(struct station *s)
{
    uint8_t *byte = &s->driver.state[station_random(s, 2) ? STATE_GROUPS : STATE_HOMES];

    *byte ^= 1;
    refusal_prepare(s);
    refusal_check(s, "flush", kagutin_flush(LOG(s), AREA(s), STATE(s), BATCH(s)), KAGUTIN_BAD_STATE);
    refusal_check(s, "begin", kagutin_begin(LOG(s), AREA(s), STATE(s), 0), KAGUTIN_BAD_STATE);
    *byte ^= 1;
}

void refusal_try(struct station *station)
{
    refusal_prepare(station);
    switch (station_random(station, 7)) {
    case 0: try_arguments(station); break;
    case 1: try_turns(station); break;
    case 2: try_short_batches(station); break;
    case 3: try_rounds(station); break;
    case 4: try_rights(station); break;
    case 5: try_events(station); break;
    default: try_bad_state(station); break;
    }
}

bool refusal_if_worn_out(struct station *s)
{
    if (rule_number(s->driver.log + 2, 6) + s->driver.groups <= KAGUTIN_MAX_START)
        return false;
    refusal_prepare(s);
    refusal_check(s, "open", kagutin_open(LOG(s), AREA(s), STATE(s), NEWEST(s), BATCH(s)), KAGUTIN_WORN_OUT);
    s->worn_out = true;
    return true;
}

/* On the loaded copies, before the opening that must be done. */
void refusal_try_open(struct station *s)
{
    uint8_t header[KAGUTIN_HEADER_SIZE];
    size_t at = station_random(s, 2) ? 0 : 12 + (size_t)station_random(s, 52);
    int i;

    refusal_prepare(s);
    refusal_check(s, "open",
                  kagutin_open(LOG(s), AREA(s), STATE(s), NEWEST(s), s->driver.batch,
                               KAGUTIN_GW_SIZE * s->driver.groups + KAGUTIN_KW_SIZE + 3 * KAGUTIN_FN_SIZE - 1),
                  KAGUTIN_SHORT_BATCH);
    refusal_check(s, "open", kagutin_open(LOG(s), AREA(s), STATE(s), s->driver.newest, s->driver.newest_size - 1, BATCH(s)),
                  KAGUTIN_BAD_LENGTH);
    refusal_check(s, "open", kagutin_open(LOG(s), s->driver.area, s->driver.area_size - 1, STATE(s), NEWEST(s), BATCH(s)),
                  KAGUTIN_BAD_LENGTH);
    memcpy(header, s->driver.log, sizeof header);
    s->driver.log[at] ^= 1;
    refusal_prepare(s);
    refusal_check(s, "open", kagutin_open(LOG(s), AREA(s), STATE(s), NEWEST(s), BATCH(s)), KAGUTIN_BAD_HEADER);
    memcpy(s->driver.log, header, sizeof header);
    for (i = 0; i < 6; i++)
        s->driver.log[2 + i] = (uint8_t)((KAGUTIN_MAX_START - s->driver.groups + 1) >> (8 * i));
    refusal_prepare(s);
    refusal_check(s, "open", kagutin_open(LOG(s), AREA(s), STATE(s), NEWEST(s), BATCH(s)), KAGUTIN_WORN_OUT);
    memcpy(s->driver.log, header, sizeof header);
}
