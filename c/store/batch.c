/* Records of a batch, read; batches, run on a driver by the proved call. */
#include <string.h>

#include "kagutin_store_inner.h"

bool kgt_read_record(const uint8_t *batch, size_t size, size_t groups, size_t homes, struct kgt_record *record)
{
    static const struct {
        char mark[3];
        size_t size, head;
    } kinds[] = {
        {"GW", KAGUTIN_GW_SIZE, 4},
        {"HW", KAGUTIN_HW_SIZE, 4},
        {"KW", KAGUTIN_KW_SIZE, 2},
        {"FN", KAGUTIN_FN_SIZE, 2},
    };
    size_t i;

    if (size < 2)
        return false;
    for (i = 0; i < 4; i++) {
        if (memcmp(batch, kinds[i].mark, 2) != 0)
            continue;
        if (size < kinds[i].size)
            return false;
        record->kind = (enum kgt_kind)i;
        record->size = kinds[i].size;
        record->bytes = batch + kinds[i].head;
        record->place = kinds[i].head == 4 ? (size_t)batch[2] | (size_t)batch[3] << 8 : 0;
        return record->place < (i == KGT_GW ? groups : i == KGT_HW ? homes : 1);
    }
    return false;
}

void kgt_runner_init(struct kgt_runner *runner, struct kgt_driver driver, const uint8_t *log, const uint8_t *state, size_t groups,
                     size_t homes)
{
    runner->driver = driver;
    runner->groups = groups;
    runner->homes = homes;
    runner->log = log;
    runner->state = state;
    runner->headed = KGT_NONE_WAITS;
}

static int carry_out(const struct kgt_runner *runner, const uint8_t *batch, const struct kagutin_action *action)
{
    const struct kgt_driver *driver = &runner->driver;
    const uint8_t *source = action->source == 0 ? batch : runner->log;

    if (action->kind == KAGUTIN_FENCE)
        return driver->fence(driver->context);
    if (action->kind != KAGUTIN_WRITE)
        return KGT_BAD_BATCH;
    return driver->write(driver->context, (enum kgt_area)action->area, (size_t)action->offset, source + (size_t)action->from,
                         (size_t)action->size);
}

int kgt_run(struct kgt_runner *runner, const uint8_t *batch, size_t size)
{
    uint64_t next, at = 0, stage = 0;

    if (size == 0)
        return 0;
    next = runner->state ? kgt_inner_number(runner->state, STATE_NEXT) : 0;
    if (runner->headed == KGT_NONE_WAITS)
        runner->headed = next;
    while (at < size) {
        const struct kagutin_action now = kagutin_next_action(batch, size, runner->driver.landing, runner->groups, runner->homes,
                                                              next, at, runner->headed, stage);
        int error = carry_out(runner, batch, &now);

        if (error)
            return error;
        at = now.at;
        stage = now.stage;
        runner->headed = now.headed;
    }
    return 0;
}

int kgt_run_record(struct kgt_runner *runner, const struct kgt_record *record)
{
    size_t head = record->kind == KGT_GW || record->kind == KGT_HW ? 4 : 2;

    return kgt_run(runner, record->bytes - head, record->size);
}

int kgt_run_fence(struct kgt_runner *runner)
{
    static const uint8_t fence[KAGUTIN_FN_SIZE] = {'F', 'N'};

    return kgt_run(runner, fence, sizeof fence);
}
