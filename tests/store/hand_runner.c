/* Batches run on a driver, by hand. */
#include "hand_runner.h"

#include <stdlib.h>
#include <string.h>

#define WORD 8u

void hand_runner_init(struct hand_runner *runner, struct kgt_driver driver, size_t groups, size_t homes)
{
    runner->driver = driver;
    runner->groups = groups;
    runner->homes = homes;
    runner->waiting = 0;
}

/* What was written of the groups has arrived: their first words may follow. */
static int write_heads(struct hand_runner *runner)
{
    const struct kgt_driver *driver = &runner->driver;
    size_t i;
    int error;

    if (runner->waiting == 0)
        return 0;
    error = driver->fence(driver->context);
    for (i = 0; i < runner->waiting && !error; i++)
        error = driver->write(driver->context, KGT_LOG, KGT_LOG_SIZE(runner->heads[i].slot), runner->heads[i].word, WORD);
    runner->waiting = 0;
    return error;
}

static bool is_zero(const uint8_t *word)
{
    static const uint8_t zeros[WORD] = {0};

    return memcmp(word, zeros, WORD) == 0;
}

static int write_group(struct hand_runner *runner, size_t slot, const uint8_t *bytes)
{
    const struct kgt_driver *driver = &runner->driver;
    size_t at = KGT_LOG_SIZE(slot);

    if (driver->landing == KGT_LANDS_BLOCKS || is_zero(bytes))
        return driver->write(driver->context, KGT_LOG, at, bytes, KAGUTIN_GROUP_SIZE);
    if (runner->waiting == HAND_HEADS)
        abort();
    runner->heads[runner->waiting].slot = slot;
    memcpy(runner->heads[runner->waiting].word, bytes, WORD);
    runner->waiting++;
    return driver->write(driver->context, KGT_LOG, at + WORD, bytes + WORD, KAGUTIN_GROUP_SIZE - WORD);
}

/* A header without a mark, as a format begins with: the old mark is gone before any other word changes. */
static int write_header(struct hand_runner *runner, const uint8_t *bytes)
{
    const struct kgt_driver *driver = &runner->driver;
    int error = 0;

    if (driver->landing == KGT_LANDS_WORDS && is_zero(bytes)) {
        error = driver->write(driver->context, KGT_LOG, 0, bytes, WORD);
        if (!error)
            error = driver->fence(driver->context);
    }
    return error ? error : driver->write(driver->context, KGT_LOG, 0, bytes, KAGUTIN_HEADER_SIZE);
}

static int run_fence(struct hand_runner *runner)
{
    int error = write_heads(runner);

    return error ? error : runner->driver.fence(runner->driver.context);
}

static int run_record(struct hand_runner *runner, const struct kgt_record *record)
{
    const struct kgt_driver *driver = &runner->driver;

    switch (record->kind) {
    case KGT_GW: return write_group(runner, record->place, record->bytes);
    case KGT_HW:
        return driver->write(driver->context, KGT_HOMES, KGT_HOMES_SIZE(record->place), record->bytes, KAGUTIN_BLOCK_SIZE);
    case KGT_KW: return write_header(runner, record->bytes);
    default: return run_fence(runner);
    }
}

int hand_run(struct hand_runner *runner, const uint8_t *batch, size_t size)
{
    struct kgt_record record;
    size_t at;

    for (at = 0; at < size; at += record.size) {
        int error;

        if (!kgt_read_record(batch + at, size - at, runner->groups, runner->homes, &record))
            return KGT_BAD_BATCH;
        error = run_record(runner, &record);
        if (error)
            return error;
    }
    return 0;
}
