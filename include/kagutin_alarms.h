/*
 * Alarms that come and clear: up to 48 open ones and the gravest of them, in
 * homes 24 to 29 of a Kagutin store. Stands on the store's calls alone; links
 * with kagutin.h's library. The calls are lent what the store's own are.
 *
 * An alarm has an identity (16 bits), a class from 1 to 9 and the second of its
 * arrival (32 bits). Gravest is the lowest class, then the earliest second, then
 * the lowest identity. It is stored in the same transaction as the list.
 *
 * After a power cut the open alarms are the arrivals whose commits came back,
 * less those cleared by commits that came back, provided that nobody else
 * stores to homes 24 to 29.
 */
#ifndef KAGUTIN_ALARMS_H
#define KAGUTIN_ALARMS_H

#include "kagutin.h"

#ifdef __cplusplus
extern "C" {
#endif

#define KAGUTIN_ALARMS_HOME 24
#define KAGUTIN_ALARMS_HOMES 6
#define KAGUTIN_MAX_ALARMS 48
#define KAGUTIN_MIN_CLASS 1
#define KAGUTIN_MAX_CLASS 9

/* The most that an event writes: one group. */
#define KAGUTIN_ALARM_BATCH KAGUTIN_GW_SIZE

/* The answer, and the alarm; three zeros if none is open, and if not done. */
struct kagutin_alarm {
    uint64_t code; /* one of enum kagutin_answer */
    uint64_t identity;
    uint64_t alarm_class;
    uint64_t second;
};

/*
 * An alarm arrives: one transaction of an idle writer, six stores. An identity
 * is open once at a time. figure: the ticket.
 * Batch: GW if one of the six entries is the seventh of its group.
 * Answers 24 (class), then once for all six homes 1, 2, 4, 5, 19, 20, 24 (open
 * already), 25, 6, 8, 9.
 */
struct kagutin_reply kagutin_alarm_arrive(uint8_t *log, size_t log_size, const uint8_t *area, size_t area_size, uint8_t *state,
                                          size_t state_size, uint8_t *newest, size_t newest_size, uint8_t *batch,
                                          size_t batch_size, uint64_t writer, uint16_t identity, uint64_t alarm_class,
                                          uint32_t second);

/* An alarm clears, in the same way. Answers 1, 2, 4, 5, 19, 20, 24 (not open), 6, 8, 9. */
struct kagutin_reply kagutin_alarm_clear(uint8_t *log, size_t log_size, const uint8_t *area, size_t area_size, uint8_t *state,
                                         size_t state_size, uint8_t *newest, size_t newest_size, uint8_t *batch,
                                         size_t batch_size, uint64_t writer, uint16_t identity);

/*
 * The gravest open alarm, as it is kept in the first of the homes: class 0 if
 * none is open. Changes nothing. Answers 1, 2, 4, 5, 20.
 */
struct kagutin_alarm kagutin_alarm_gravest(const uint8_t *log, size_t log_size, const uint8_t *area, size_t area_size,
                                           const uint8_t *state, size_t state_size, const uint8_t *newest, size_t newest_size,
                                           uint64_t writer);

#ifdef __cplusplus
}
#endif

#endif
