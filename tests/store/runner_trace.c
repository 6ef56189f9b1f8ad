/* Drivers that record what is asked of them. */
#include "runner_trace.h"

#include <stdio.h>
#include <stdlib.h>
#include <string.h>

enum { WRITE = 1, FENCE = 2, BROKEN = 77 };

struct trace {
    uint8_t bytes[1 << 17];
    size_t size;
};

static struct trace traces[2], *trace;
static const struct kgt_driver *onto; /* the medium that the calls go on to, if any */
static uint64_t calls_left;           /* until one fails */
static uint64_t random_state = 88172645463325252u;
unsigned long traced_calls, traced_words;

uint64_t random_below(uint64_t limit)
{
    random_state ^= random_state << 13;
    random_state ^= random_state >> 7;
    random_state ^= random_state << 17;
    return random_state % limit;
}

void wrong(const char *what, unsigned long at)
{
    printf("runner_check: wrong: %s, at %lu\n", what, at);
    exit(1);
}

static void note(const void *bytes, size_t count)
{
    if (count > sizeof trace->bytes - trace->size)
        wrong("a trace that is too long", 0);
    memcpy(trace->bytes + trace->size, bytes, count);
    trace->size += count;
}

static int load(void *context, enum kgt_area area, size_t at, uint8_t *bytes, size_t count)
{
    (void)context, (void)area, (void)at, (void)bytes, (void)count;
    return BROKEN;
}

static int write_area(void *context, enum kgt_area area, size_t at, const uint8_t *bytes, size_t count)
{
    const uint64_t call[] = {WRITE, area, at, count};

    (void)context;
    note(call, sizeof call);
    note(bytes, count);
    traced_calls++;
    traced_words += count == 8 && at != 0;
    if (onto && onto->write(onto->context, area, at, bytes, count) != 0)
        wrong("the medium fails", 0);
    return calls_left-- == 0 ? BROKEN : 0; /* a write that fails may have arrived */
}

static int fence(void *context)
{
    const uint64_t call = FENCE;

    (void)context;
    note(&call, sizeof call);
    traced_calls++;
    if (calls_left-- == 0)
        return BROKEN;
    if (onto && onto->fence(onto->context) != 0)
        wrong("the medium fails", 0);
    return 0;
}

static const struct kgt_driver *medium_of_proved;

void both_init(struct both *both, const struct kgt_driver *medium, enum kgt_landing landing, const uint8_t *log,
               const uint8_t *state, size_t groups, size_t homes)
{
    const struct kgt_driver driver = {NULL, load, write_area, fence, landing};

    medium_of_proved = medium;
    kgt_runner_init(&both->proved, driver, log, state, groups, homes);
    hand_runner_init(&both->hand, driver, groups, homes);
}

int both_run(struct both *both, const uint8_t *batch, size_t size, uint64_t fails, unsigned long at)
{
    unsigned long calls = traced_calls, words = traced_words;
    int by_hand, proved;

    traces[0].size = traces[1].size = 0;
    trace = &traces[0];
    onto = NULL;
    calls_left = fails;
    by_hand = hand_run(&both->hand, batch, size);
    traced_calls = calls;
    traced_words = words;
    trace = &traces[1];
    onto = medium_of_proved;
    calls_left = fails;
    proved = kgt_run(&both->proved, batch, size);
    if (proved != by_hand)
        wrong("one runner stops with another error", at);
    return proved;
}

void both_same(unsigned long at)
{
    if (traces[0].size != traces[1].size || memcmp(traces[0].bytes, traces[1].bytes, traces[0].size) != 0)
        wrong("other driver calls", at);
}
