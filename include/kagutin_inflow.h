/*
 * Least and most inflow of a pit whose depth is known only as between two
 * float switches. Links with libinflow.a alone; no store is needed.
 *
 * Depths are millimetres, the area is cm², volumes are cm² × mm: ten thousand
 * of them are one litre.
 */
#ifndef KAGUTIN_INFLOW_H
#define KAGUTIN_INFLOW_H

#include <stdint.h>

#ifdef __cplusplus
extern "C" {
#endif

#define KAGUTIN_MAX_AREA 1000000
#define KAGUTIN_VOLUMES_PER_LITRE 10000

/* Answer of a call that is not done; 0 is done. */
#define KAGUTIN_BAD_RANGE 23

/* The answer, and both volumes; they may be negative. Zeros if not done. */
struct kagutin_inflow_bounds {
    uint64_t code;
    int64_t least;
    int64_t most;
};

/*
 * Inflow between two moments is area × (depth after − depth before) + pumped.
 * For every choice of whole values inside the three ranges it lies from least
 * to most, and both are reached: least with the highest depth before, the
 * lowest after and the least pumped, most with their opposites. A range may be
 * one value, low = high. Nothing overflows.
 * Answers 23: a range with low above high, or an area of 0 or above 1,000,000.
 */
struct kagutin_inflow_bounds kagutin_inflow(uint64_t area, uint16_t low_before, uint16_t high_before, uint16_t low_after,
                                            uint16_t high_after, uint32_t low_pumped, uint32_t high_pumped);

#ifdef __cplusplus
}
#endif

#endif
