/*
 * A second implementation of the runner, by hand: from a batch to the driver's
 * calls without kagutin_next_action. First words wait in a table, not in the
 * log copy. For tests/store/runner_check.c.
 */
#ifndef HAND_RUNNER_H
#define HAND_RUNNER_H

#include "kagutin_store.h"

enum { HAND_HEADS = 64 }; /* first words that may wait; more than the groups of a test */

struct hand_runner {
    struct kgt_driver driver;
    size_t groups, homes;
    size_t waiting; /* first words not yet written */
    struct {
        size_t slot;
        uint8_t word[8];
    } heads[HAND_HEADS];
};

void hand_runner_init(struct hand_runner *runner, struct kgt_driver driver, size_t groups, size_t homes);

/* 0, or the error at which it stopped. */
int hand_run(struct hand_runner *runner, const uint8_t *batch, size_t size);

#endif
