/*
 * Calls on one to seven homes in a row under one verdict, for what stands above
 * the store: kagutin_bands.h, kagutin_hours.h, kagutin_alarms.h, or a unit of your
 * own. Their questions are asked once for all homes.
 *
 * blocks is a strip of home blocks, 64 bytes each, the call's home first.
 */
#ifndef KAGUTIN_CHAINS_H
#define KAGUTIN_CHAINS_H

#include "kagutin.h"

#ifdef __cplusplus
extern "C" {
#endif

/* The most blocks of a strip: as many entries as a group has. */
#define KAGUTIN_MAX_CHAIN KAGUTIN_GROUP_ENTRIES

/* The most that transact writes: one group. */
#define KAGUTIN_TRANSACT_BATCH KAGUTIN_GW_SIZE

/*
 * Reads the homes as the writer sees them, as read does for each. Only the strip
 * is changed. Answers 1 (also a strip of no whole blocks, of none or of more than
 * seven), 2, 4, 5 (one of the homes is not below D), 20.
 */
struct kagutin_reply kagutin_fetch(const uint8_t *log, size_t log_size, const uint8_t *area, size_t area_size,
                                   const uint8_t *state, size_t state_size, const uint8_t *newest, size_t newest_size,
                                   uint8_t *blocks, size_t blocks_size, uint64_t writer, uint64_t home);

/* The same for a writer that is going to store what it makes of them. Answers 1, 2, 4, 5, 19, 20. */
struct kagutin_reply kagutin_revise(const uint8_t *log, size_t log_size, const uint8_t *area, size_t area_size,
                                    const uint8_t *state, size_t state_size, const uint8_t *newest, size_t newest_size,
                                    uint8_t *blocks, size_t blocks_size, uint64_t writer, uint64_t home);

/*
 * Begin, a store of each block by rising home, and commit, of an idle writer:
 * one transaction, or nothing at all. figure: the ticket.
 * Batch: GW if one of the entries is the seventh of its group.
 * Answers 1, 2, 4, 5, 19, 6, 8 (fewer places are free than there are blocks), 9.
 */
struct kagutin_reply kagutin_transact(uint8_t *log, size_t log_size, const uint8_t *area, size_t area_size, uint8_t *state,
                                      size_t state_size, uint8_t *newest, size_t newest_size, const uint8_t *blocks,
                                      size_t blocks_size, uint8_t *batch, size_t batch_size, uint64_t writer, uint64_t home);

#ifdef __cplusplus
}
#endif

#endif
