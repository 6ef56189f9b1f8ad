/* The calls that the page makes on its one store. Each returns its answer; figures and the batch's size are asked for afterwards. */
#include <stdbool.h>
#include <stdlib.h>

#include "host.h"
#include "kagutin_alarms.h"
#include "kagutin_bands.h"
#include "kagutin_hours.h"
#include "lent.h"

enum { FIGURES = 8 };

static struct lent lent;
static enum program program;
static uint64_t figures[FIGURES];

#define COPIES lent.log, lent.log_size, lent.area, lent.area_size
#define STATE COPIES, lent.state, KAGUTIN_STATE_SIZE
#define NEWEST STATE, lent.newest, lent.newest_size
#define BATCH lent.batch, lent.batch_size

/* Lends memory for a store of this shape; false if there is none. */
TO_PAGE(lend) bool page_lend(size_t groups, size_t homes)
{
    lent.groups = groups;
    lent.homes = homes;
    lent.log_size = kagutin_log_size(groups);
    lent.area_size = kagutin_area_size(homes);
    lent.newest_size = kagutin_newest_size(homes);
    lent.batch_size = kagutin_format_batch(groups, homes);
    lent.log = calloc(1, lent.log_size);
    lent.area = calloc(1, lent.area_size);
    lent.newest = calloc(1, lent.newest_size);
    lent.state = calloc(1, KAGUTIN_STATE_SIZE);
    lent.block = calloc(KAGUTIN_GROUP_ENTRIES, KAGUTIN_BLOCK_SIZE);
    lent.batch = calloc(1, lent.batch_size + lent.area_size);
    memory_keep();
    return lent.log && lent.area && lent.newest && lent.state && lent.block && lent.batch;
}

TO_PAGE(choose_program) void page_choose_program(enum program chosen)
{
    program = chosen;
}
TO_PAGE(log) uint8_t *page_log(void)
{
    return lent.log;
}
TO_PAGE(area) uint8_t *page_area(void)
{
    return lent.area;
}
TO_PAGE(batch) uint8_t *page_batch(void)
{
    return lent.batch;
}
TO_PAGE(block) uint8_t *page_block(void)
{
    return lent.block;
}

/* Of the last call; below 2^53. */
TO_PAGE(figure) double page_figure(unsigned index)
{
    return (double)figures[index % FIGURES];
}

/* The answer's text, as the library's header has it. */
TO_PAGE(answer_text) const char *page_answer_text(uint32_t code)
{
    return kagutin_answer_text(code);
}

/* figure 0: the reply's; figure 1: size of the batch. */
static uint32_t keep(struct kagutin_reply reply)
{
    figures[0] = reply.figure;
    figures[1] = program == NO_FENCE ? wrong_no_fence(lent.batch, (size_t)reply.size) : reply.size;
    return (uint32_t)reply.code;
}

static uint32_t keep_pair(uint64_t code, uint64_t first, uint64_t second)
{
    figures[0] = first;
    figures[1] = second;
    return (uint32_t)code;
}

TO_PAGE(format) uint32_t page_format(void)
{
    return keep(kagutin_format(COPIES, BATCH));
}

TO_PAGE(open) uint32_t page_open(void)
{
    struct kagutin_reply reply = program == BY_POSITION ? wrong_open_by_position(&lent) : kagutin_open(NEWEST, BATCH);

    if (program == BLANKING_FIRST)
        wrong_blanking_first(lent.batch, (size_t)reply.size);
    return keep(reply);
}

TO_PAGE(begin) uint32_t page_begin(uint32_t writer)
{
    return keep(kagutin_begin(STATE, writer));
}
TO_PAGE(reserve) uint32_t page_reserve(uint32_t writer, uint32_t n)
{
    return keep(kagutin_reserve(STATE, writer, n));
}
TO_PAGE(abort) uint32_t page_abort(uint32_t writer)
{
    return keep(kagutin_abort(STATE, writer));
}

TO_PAGE(store) uint32_t page_store(uint32_t writer, uint32_t home)
{
    return keep(kagutin_store(STATE, lent.block, KAGUTIN_BLOCK_SIZE, BATCH, writer, home));
}

TO_PAGE(commit) uint32_t page_commit(uint32_t writer)
{
    return keep(kagutin_commit(NEWEST, BATCH, writer));
}
TO_PAGE(flush) uint32_t page_flush(void)
{
    return keep(kagutin_flush(STATE, BATCH));
}
TO_PAGE(confirm) uint32_t page_confirm(void)
{
    return keep(kagutin_confirm(STATE));
}
TO_PAGE(settle) uint32_t page_settle(void)
{
    return keep(kagutin_settle(STATE, BATCH));
}
TO_PAGE(begin_round) uint32_t page_begin_round(void)
{
    return keep(kagutin_begin_round(STATE));
}
TO_PAGE(step_round) uint32_t page_step_round(uint32_t homes)
{
    return keep(kagutin_step_round(STATE, BATCH, homes));
}
TO_PAGE(trim) uint32_t page_trim(void)
{
    return keep(kagutin_trim(NEWEST, BATCH));
}

TO_PAGE(read) uint32_t page_read(uint32_t writer, uint32_t home)
{
    return keep(kagutin_read(NEWEST, lent.block, KAGUTIN_BLOCK_SIZE, writer, home));
}

/* figures: live, dead, free, promised, holder. */
TO_PAGE(usage) uint32_t page_usage(void)
{
    struct kagutin_places places = kagutin_usage(STATE);

    figures[0] = places.live;
    figures[1] = places.dead;
    figures[2] = places.free;
    figures[3] = places.promised;
    figures[4] = places.holder;
    return (uint32_t)places.code;
}

/* ---- what stands above the store ---- */

TO_PAGE(pump_start) uint32_t page_pump_start(uint32_t writer, uint32_t pump, uint32_t second)
{
    return keep(kagutin_pump_start(NEWEST, BATCH, writer, pump, second));
}

TO_PAGE(pump_stop) uint32_t page_pump_stop(uint32_t writer, uint32_t pump, uint32_t second)
{
    return keep(kagutin_pump_stop(NEWEST, BATCH, writer, pump, second));
}

/* figures: starts, run seconds. */
TO_PAGE(pump_hours) uint32_t page_pump_hours(uint32_t writer, uint32_t pump)
{
    struct kagutin_hours hours = kagutin_pump_hours(NEWEST, writer, pump);

    return keep_pair(hours.code, hours.starts, hours.seconds);
}

/* figures: whole services due, seconds left over. */
TO_PAGE(pump_services) uint32_t page_pump_services(uint32_t writer, uint32_t pump, uint32_t interval)
{
    struct kagutin_services services = kagutin_pump_services(NEWEST, writer, pump, interval);

    return keep_pair(services.code, services.due, services.left);
}

TO_PAGE(alarm_arrive) uint32_t page_alarm_arrive(uint32_t writer, uint32_t identity, uint32_t alarm_class, uint32_t second)
{
    return keep(kagutin_alarm_arrive(NEWEST, BATCH, writer, (uint16_t)identity, alarm_class, second));
}

TO_PAGE(alarm_clear) uint32_t page_alarm_clear(uint32_t writer, uint32_t identity)
{
    return keep(kagutin_alarm_clear(NEWEST, BATCH, writer, (uint16_t)identity));
}

/* figures: identity, class, second. */
TO_PAGE(alarm_gravest) uint32_t page_alarm_gravest(uint32_t writer)
{
    struct kagutin_alarm alarm = kagutin_alarm_gravest(NEWEST, writer);

    figures[0] = alarm.identity;
    figures[1] = alarm.alarm_class;
    figures[2] = alarm.second;
    return (uint32_t)alarm.code;
}

/* Rows stand in the blocks' room. */
TO_PAGE(bands_set) uint32_t page_bands_set(uint32_t writer, size_t size)
{
    return keep(kagutin_bands_set(NEWEST, BATCH, lent.block, size, writer));
}

/* figures: from, to, pumps. */
TO_PAGE(bands_look_up) uint32_t page_bands_look_up(uint32_t writer, uint32_t mm)
{
    struct kagutin_band band = kagutin_bands_look_up(NEWEST, writer, mm);

    figures[0] = band.from;
    figures[1] = band.to;
    figures[2] = band.pumps;
    return (uint32_t)band.code;
}
