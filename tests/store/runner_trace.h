/* What two runners ask of their drivers, recorded and compared. For tests/store/runner_check.c. */
#ifndef RUNNER_TRACE_H
#define RUNNER_TRACE_H

#include "hand_runner.h"

/* Both runners, each on a driver that records. */
struct both {
    struct kgt_runner proved; /* the object's, by kagutin_next_action */
    struct hand_runner hand;
};

uint64_t random_below(uint64_t limit);
void wrong(const char *what, unsigned long at);

/* Both anew, as before an opening or a format. The object's runner writes on to the medium; null: to none. */
void both_init(struct both *both, const struct kgt_driver *medium, enum kgt_landing landing, const uint8_t *log,
               const uint8_t *state, size_t groups, size_t homes);

/*
 * Runs a batch by both, and the driver's call number `fails`, counted from 0,
 * fails: they stop with the same error, which it returns.
 */
int both_run(struct both *both, const uint8_t *batch, size_t size, uint64_t fails, unsigned long at);

/* They made the same calls, with the same bytes. */
void both_same(unsigned long at);

/* Driver calls so far, and of these first words. */
extern unsigned long traced_calls, traced_words;

#endif
