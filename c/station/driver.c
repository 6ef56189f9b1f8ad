/* Records on their way to lasting memory: queue, fences, power cuts. */
#include "driver_inner.h"

#include <stdarg.h>
#include <stdio.h>
#include <stdlib.h>
#include <string.h>

bool driver_fail(struct driver *driver, const char *format, ...)
{
    va_list arguments;

    va_start(arguments, format);
    vsnprintf(driver->message, sizeof driver->message, format, arguments);
    va_end(arguments);
    return false;
}

const char *driver_message(const struct driver *driver)
{
    return driver->message;
}

/* ---- batches ---- */

/* Which block a write goes to: 0 the header, then the groups, then the homes. */
static size_t block_of(const struct driver *driver, const struct kgt_record *record)
{
    if (record->kind == KGT_KW)
        return 0;
    return record->kind == KGT_GW ? 1 + record->place : 1 + driver->groups + record->place;
}

static bool check_batch(struct driver *driver, size_t size)
{
    size_t blocks = 1 + driver->groups + driver->homes;
    size_t at = 0;
    struct kgt_record record;

    while (at < size) {
        if (!kgt_read_record(driver->batch + at, size - at, driver->groups, driver->homes, &record))
            return driver_fail(driver, "damaged batch: no record at byte %lu of %lu", (unsigned long)at, (unsigned long)size);
        if (record.kind == KGT_FN) {
            memset(driver->written, 0, blocks);
        } else {
            uint8_t *mark = &driver->written[block_of(driver, &record)];

            if (*mark)
                return driver_fail(driver, "damaged batch: byte %lu writes a block twice between two fences", (unsigned long)at);
            *mark = 1;
        }
        at += record.size;
    }
    return true;
}

bool driver_submit(struct driver *driver, uint64_t size)
{
    size_t at = 0;
    struct kgt_record record;

    if (size > driver->batch_size)
        return driver_fail(driver, "damaged batch: %llu bytes in a buffer of %lu", (unsigned long long)size,
                           (unsigned long)driver->batch_size);
    if (!check_batch(driver, (size_t)size))
        return false;
    if (driver->queue_size + size > driver->queue_room) {
        size_t room = 2 * (driver->queue_size + (size_t)size);
        uint8_t *queue = realloc(driver->queue, room);

        if (!queue)
            return driver_fail(driver, "out of memory for records that wait");
        driver->queue = queue;
        driver->queue_room = room;
    }
    if (size)
        memcpy(driver->queue + driver->queue_size, driver->batch, (size_t)size);
    driver->queue_size += (size_t)size;
    while (at < size && kgt_read_record(driver->batch + at, (size_t)size - at, driver->groups, driver->homes, &record)) {
        driver->fences += record.kind == KGT_FN;
        at += record.size;
    }
    return true;
}

static bool queued(const struct driver *driver, size_t at, size_t end, struct kgt_record *record)
{
    return at < end && kgt_read_record(driver->queue + at, end - at, driver->groups, driver->homes, record);
}

static size_t count_records(const struct driver *driver, size_t at, size_t end)
{
    size_t count = 0;
    struct kgt_record record;

    for (; queued(driver, at, end, &record); at += record.size)
        count++;
    return count;
}

size_t driver_waiting(const struct driver *driver)
{
    return count_records(driver, driver->issued, driver->queue_size);
}

size_t driver_issued(const struct driver *driver)
{
    return count_records(driver, 0, driver->issued);
}

static size_t blocks_in(const struct kgt_record *record)
{
    return record->kind == KGT_GW ? KAGUTIN_GROUP_SIZE / KAGUTIN_BLOCK_SIZE : record->kind != KGT_FN;
}

size_t driver_blocks_issued(const struct driver *driver)
{
    size_t count = 0, at;
    struct kgt_record record;

    for (at = 0; queued(driver, at, driver->issued, &record); at += record.size)
        count += blocks_in(&record);
    return count;
}

/* A group with a number; those that an opening blanks have none. */
static bool is_numbered(const struct kgt_record *record)
{
    return record->kind == KGT_GW && record->bytes[0];
}

uint64_t driver_groups_issued(const struct driver *driver)
{
    uint64_t count = driver->first_group;
    struct kgt_record record;
    size_t at;

    for (at = 0; queued(driver, at, driver->issued, &record); at += record.size)
        count += is_numbered(&record);
    return count;
}

bool driver_write_waits(const struct driver *driver)
{
    struct kgt_record record;

    return queued(driver, driver->issued, driver->queue_size, &record) && record.kind != KGT_FN;
}

/* ---- lasting memory ---- */

/* Lasting memory has failed: from now on every function that needs it does. */
static bool fail_for_good(struct driver *driver, int error)
{
    driver->failed = true;
    if (driver->file.message[0])
        return driver_fail(driver, "%s", driver->file.message);
    return driver_fail(driver, "lasting memory failed with error %d", error);
}

/* Whom a power cut asks which blocks persist; null: all do. */
struct choices {
    bool (*lands)(void *context, size_t index);
    void *context;
    size_t index; /* of the next block */
};

/* Writes those blocks of a write that persist, and tells which they are. */
static int land_blocks(struct driver *driver, struct choices *choices, const struct kgt_record *record, unsigned *blocks)
{
    const struct kgt_driver *lasting = &driver->runner.driver;
    enum kgt_area area = record->kind == KGT_HW ? KGT_HOMES : KGT_LOG;
    size_t from = record->kind == KGT_KW ? 0
        : record->kind == KGT_GW         ? KGT_LOG_SIZE(record->place)
                                         : KGT_HOMES_SIZE(record->place);
    size_t i, count = blocks_in(record);
    int error = 0;

    for (i = 0, *blocks = 0; i < count && !error; i++) {
        if (!choices->lands(choices->context, choices->index++))
            continue;
        *blocks |= 1u << i;
        error = lasting->write(lasting->context, area, from + KAGUTIN_BLOCK_SIZE * i, record->bytes + KAGUTIN_BLOCK_SIZE * i,
                               KAGUTIN_BLOCK_SIZE);
    }
    return error;
}

static bool persist_issued(struct driver *driver, struct choices *choices)
{
    size_t at;
    struct kgt_record record;
    int error = 0;

    if (driver->failed)
        return false;
    for (at = 0; !error && queued(driver, at, driver->issued, &record); at += record.size) {
        uint64_t number = is_numbered(&record) ? driver->first_group++ : 0;
        unsigned blocks = (1u << blocks_in(&record)) - 1;

        error = choices ? land_blocks(driver, choices, &record, &blocks) : kgt_run_record(&driver->runner, &record);
        if (!error && driver->persisted && blocks)
            driver->persisted(driver->context, &record, number, blocks);
    }
    if (!error)
        error = kgt_run_fence(&driver->runner);
    return error ? fail_for_good(driver, error) : true;
}

bool driver_step(struct driver *driver)
{
    struct kgt_record record;
    size_t passed;

    if (!queued(driver, driver->issued, driver->queue_size, &record))
        return true;
    if (record.kind != KGT_FN) {
        driver->issued += record.size;
        return true;
    }
    if (!persist_issued(driver, NULL))
        return false;
    passed = driver->issued + record.size;
    memmove(driver->queue, driver->queue + passed, driver->queue_size - passed);
    driver->queue_size -= passed;
    driver->issued = 0;
    driver->fences--;
    return true;
}

bool driver_run(struct driver *driver)
{
    while (driver->issued < driver->queue_size)
        if (!driver_step(driver))
            return false;
    return true;
}

bool driver_confirm(struct driver *driver, struct kagutin_reply *reply)
{
    if (driver->failed)
        return false;
    if (driver->fences)
        return driver_fail(driver, "not confirmed: %lu fences have not passed", (unsigned long)driver->fences);
    *reply = kagutin_confirm(driver->log, driver->log_size, driver->area, driver->area_size, driver->state, sizeof driver->state);
    return true;
}

bool driver_cut(struct driver *driver, bool (*lands)(void *context, size_t index), void *context)
{
    struct choices choices = {lands, context, 0};
    struct kgt_record record;
    size_t at;

    if (!persist_issued(driver, &choices))
        return false;
    for (at = driver->issued; queued(driver, at, driver->queue_size, &record); at += record.size)
        driver->first_group += is_numbered(&record);
    driver->queue_size = 0;
    driver->issued = 0;
    driver->fences = 0;
    memset(driver->written, 0, 1 + driver->groups + driver->homes);
    memset(driver->log, 0xA5, driver->log_size);
    memset(driver->area, 0xA5, driver->area_size);
    memset(driver->state, 0xA5, sizeof driver->state);
    memset(driver->newest, 0xA5, driver->newest_size);
    return true;
}

bool driver_load(struct driver *driver)
{
    const struct kgt_driver *lasting = &driver->runner.driver;
    int error;

    if (driver->failed)
        return false;
    error = lasting->load(lasting->context, KGT_LOG, 0, driver->log, driver->log_size);
    if (!error)
        error = lasting->load(lasting->context, KGT_HOMES, 0, driver->area, driver->area_size);
    return error ? fail_for_good(driver, error) : true;
}
