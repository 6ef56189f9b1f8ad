/*
 * Pump hours book: starts and run seconds of pumps 0 to 7, pump p in home 16 + p
 * of a Kagutin store. Stands on the store's calls alone; links with kagutin.h's
 * library. The calls are lent what the store's own are.
 *
 * After a power cut starts and seconds are those of the events whose commits
 * came back, provided that nobody else stores to homes 16 to 23. A pump whose
 * start came back and whose stop did not is running: a start is answered 15
 * until a stop comes.
 */
#ifndef KAGUTIN_HOURS_H
#define KAGUTIN_HOURS_H

#include "kagutin.h"

#ifdef __cplusplus
extern "C" {
#endif

#define KAGUTIN_PUMP_HOME 16
#define KAGUTIN_PUMPS 8

/* The most that an event writes: one group. */
#define KAGUTIN_PUMP_BATCH KAGUTIN_GW_SIZE

/* Zeros but for the answer if not done. */
struct kagutin_hours {
    uint64_t code; /* one of enum kagutin_answer */
    uint64_t starts;
    uint64_t seconds; /* of the finished runs */
};

struct kagutin_services {
    uint64_t code; /* one of enum kagutin_answer */
    uint64_t due;  /* whole services, one each interval seconds of finished runs */
    uint64_t left; /* seconds left over, below the interval */
};

/*
 * The pump starts, or stops, at this second count: one transaction of an idle
 * writer. A start counts one more; a stop adds the seconds since the start.
 * Equal seconds are fine. figure: the ticket.
 * Batch: GW if the entry is the seventh of its group.
 * Answers 14, 1, 2, 4, 5, 19, 20, 15, 16, 6, 8, 9.
 */
struct kagutin_reply kagutin_pump_start(uint8_t *log, size_t log_size, const uint8_t *area, size_t area_size, uint8_t *state,
                                        size_t state_size, uint8_t *newest, size_t newest_size, uint8_t *batch, size_t batch_size,
                                        uint64_t writer, uint64_t pump, uint32_t second);
struct kagutin_reply kagutin_pump_stop(uint8_t *log, size_t log_size, const uint8_t *area, size_t area_size, uint8_t *state,
                                       size_t state_size, uint8_t *newest, size_t newest_size, uint8_t *batch, size_t batch_size,
                                       uint64_t writer, uint64_t pump, uint32_t second);

/* Change nothing. Answers 14, 1, 2, 4, 5, 20. */
struct kagutin_hours kagutin_pump_hours(const uint8_t *log, size_t log_size, const uint8_t *area, size_t area_size,
                                        const uint8_t *state, size_t state_size, const uint8_t *newest, size_t newest_size,
                                        uint64_t writer, uint64_t pump);

struct kagutin_services kagutin_pump_services(const uint8_t *log, size_t log_size, const uint8_t *area, size_t area_size,
                                              const uint8_t *state, size_t state_size, const uint8_t *newest, size_t newest_size,
                                              uint64_t writer, uint64_t pump, uint64_t interval);

#ifdef __cplusplus
}
#endif

#endif
