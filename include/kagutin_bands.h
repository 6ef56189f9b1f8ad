/*
 * Depth bands: which pumps run at which depth of the pit, as a table in homes
 * 12 to 14 of a Kagutin store. Stands on the store's calls alone; links with
 * kagutin.h's library. The calls are lent what the store's own are.
 *
 * A table is a strip of 5-byte rows: from and to in millimetres, both included,
 * 16 bits each, lowest byte first, then the number of pumps. Every millimetre
 * from 0 to 9,999 lies in exactly one row. Rows need no order.
 *
 * After a power cut a lookup finds the last table whose commit came back, whole,
 * provided that nobody else stores to homes 12 to 14.
 */
#ifndef KAGUTIN_BANDS_H
#define KAGUTIN_BANDS_H

#include "kagutin.h"

#ifdef __cplusplus
extern "C" {
#endif

#define KAGUTIN_BANDS_HOME 12
#define KAGUTIN_BANDS_HOMES 3
#define KAGUTIN_BAND_SIZE 5
#define KAGUTIN_MAX_BANDS 32
#define KAGUTIN_MAX_BAND_PUMPS 4
#define KAGUTIN_DEPTHS 10000

/* The most that setting a table writes: one group. */
#define KAGUTIN_BANDS_BATCH KAGUTIN_GW_SIZE

/* The answer, and the row; zeros if not done. */
struct kagutin_band {
    uint64_t code; /* one of enum kagutin_answer */
    uint64_t from;
    uint64_t to;
    uint64_t pumps;
};

/*
 * Sets the table as one transaction of an idle writer: begin, three stores,
 * commit. figure: the ticket; with 12 and 13 the lowest millimetre in no row,
 * or in two or more.
 * Batch: GW if one of the three entries is the seventh of its group.
 * Answers 11 (no rows, more than 32, a strip that ends inside a row, from above
 * to, to above 9,999 or pumps above 4), 12, 13; then once for all three homes 1,
 * 2, 4, 5, 19, 6, 8, 9. 12 is given before 13.
 */
struct kagutin_reply kagutin_bands_set(uint8_t *log, size_t log_size, const uint8_t *area, size_t area_size, uint8_t *state,
                                       size_t state_size, uint8_t *newest, size_t newest_size, uint8_t *batch, size_t batch_size,
                                       const uint8_t *rows, size_t rows_size, uint64_t writer);

/*
 * The row that a depth lies in, as the writer sees the table. Changes nothing.
 * Answers 11 (mm above 9,999), 1, 2, 4, 5, 20, 11 (the homes hold no table that
 * would be accepted).
 */
struct kagutin_band kagutin_bands_look_up(const uint8_t *log, size_t log_size, const uint8_t *area, size_t area_size,
                                          const uint8_t *state, size_t state_size, const uint8_t *newest, size_t newest_size,
                                          uint64_t writer, uint64_t mm);

#ifdef __cplusplus
}
#endif

#endif
