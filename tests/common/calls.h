/*
 * The list of calls of kagutin.h, for programs that go through all of them:
 * CALL(CONSTANT, name, arguments). The arguments are macros of the program:
 * AREAS, STATE, NEWEST, BLOCK and BATCH are pointers with their lengths, WRITER,
 * HOME, PLACES_ASKED and HOMES_ASKED numbers. kagutin_usage, which answers with
 * numbers of its own, is not among them. Other lists follow this one:
 * rust/reference/src/kinds.rs, which its test holds to it, and port/report.py.
 */
#ifndef TESTS_CALLS_H
#define TESTS_CALLS_H

#define KAGUTIN_CALLS(CALL)                                                                                                      \
    CALL(FORMAT, format, (AREAS, BATCH))                                                                                         \
    CALL(OPEN, open, (AREAS, STATE, NEWEST, BATCH))                                                                              \
    CALL(BEGIN, begin, (AREAS, STATE, WRITER))                                                                                   \
    CALL(RESERVE, reserve, (AREAS, STATE, WRITER, PLACES_ASKED))                                                                 \
    CALL(ABORT, abort, (AREAS, STATE, WRITER))                                                                                   \
    CALL(STORE, store, (AREAS, STATE, BLOCK, BATCH, WRITER, HOME))                                                               \
    CALL(COMMIT, commit, (AREAS, STATE, NEWEST, BATCH, WRITER))                                                                  \
    CALL(FLUSH, flush, (AREAS, STATE, BATCH))                                                                                    \
    CALL(CONFIRM, confirm, (AREAS, STATE))                                                                                       \
    CALL(SETTLE, settle, (AREAS, STATE, BATCH))                                                                                  \
    CALL(BEGIN_ROUND, begin_round, (AREAS, STATE))                                                                               \
    CALL(STEP_ROUND, step_round, (AREAS, STATE, BATCH, HOMES_ASKED))                                                             \
    CALL(TRIM, trim, (AREAS, STATE, NEWEST, BATCH))                                                                              \
    CALL(READ, read, (AREAS, STATE, NEWEST, BLOCK, WRITER, HOME))

/* Rows of an enum, and of a list of names. */
#define CALL_CONSTANT(constant, name, arguments) constant,
#define CALL_NAME(constant, name, arguments) #name,

#endif
