/*
 * Every call of the store object and of the units on it, by number, with its
 * reply laid flat: for tests that try something at each of them.
 */
#ifndef TESTS_OPERATIONS_H
#define TESTS_OPERATIONS_H

#include "kagutin_rights.h"
#include "kagutin_units.h"

enum operation {
    OP_BEGIN,
    OP_RESERVE,
    OP_STORE,
    OP_COMMIT,
    OP_COMMIT_SYNC,
    OP_ABORT,
    OP_READ,
    OP_SYNC,
    OP_MAINTAIN,
    OP_MAINTAIN_ALL,
    OP_USAGE,
    OP_SET_RIGHTS,
    OP_GET_RIGHTS,
    OP_BANDS_SET,
    OP_BANDS_LOOK_UP,
    OP_PUMP_START,
    OP_PUMP_STOP,
    OP_PUMP_HOURS,
    OP_PUMP_SERVICES,
    OP_ALARM_ARRIVE,
    OP_ALARM_CLEAR,
    OP_ALARM_GRAVEST,
    OP_OPEN,
    OPERATIONS
};

/* Writers: one with a transaction open, one for events. */
enum { OP_WRITER = 4, OP_IDLE_WRITER = 5 };

struct outcome {
    uint64_t code, holder;
    int error;
    bool has_ticket, has_mark, has_more, has_numbers; /* fields that this call's reply has */
    uint64_t ticket, mark;
    bool more;
    uint64_t numbers[3]; /* told only if done */
    enum kgt_panel shown;
};

extern const char *const operation_names[OPERATIONS];

/* Runs one call with arguments that are in order. */
struct outcome operate(struct kagutin *store, enum operation operation);

/* Null, or what a program that looks at one field alone could misread in a reply that is not done. */
const char *misleads(const struct outcome *outcome);

#endif
