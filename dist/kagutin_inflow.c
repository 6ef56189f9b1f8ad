/*
 * Kagutin as one C99 file, made by port/generate.py from the proved program.
 * Do not edit: change the sources under crates/ and run `make dist`.
 *
 * Needs kagutin_inflow.h, memcpy and memset; no heap, no other library, no state
 * of its own. All that is not declared there is static. Where a compiler is
 * known, some helpers have a quicker form; -DKAGUTIN_PLAIN_C leaves them out.
 */
#include <stdbool.h>
#include <stddef.h>
#include <stdint.h>
#include <string.h>

#include "kagutin_inflow.h"

#if defined(__GNUC__) && !defined(__clang__) && SIZE_MAX < UINT64_MAX
/* Counts are 64 bits wide and proved to stay in memory; gcc warns of turns that they never reach. */
#pragma GCC diagnostic ignored "-Waggressive-loop-optimizations"
#endif

struct alone_inflow__Bounds {
    uint64_t code;
    uint64_t least;
    uint64_t most;
};

/* The signed number of these bits. */
static inline int64_t to_signed(uint64_t x)
{
    return x >> 63 ? -(int64_t)~x - 1 : (int64_t)x;
}

/* The least and the most inflow between two moments, from the depth range at each, the pit's area and the range of pumped volume.
   [S-72] */
static inline struct alone_inflow__Bounds alone_inflow__kagutin_inflow(uint64_t area, uint16_t low_before, uint16_t high_before,
        uint16_t low_after, uint16_t high_after, uint32_t low_pumped, uint32_t high_pumped)
{
    if ((area < 1u) || ((UINT64_C(0xf4240) < area) || ((high_before < low_before) || ((high_after < low_after)
            || (high_pumped < low_pumped))))) {
        return (struct alone_inflow__Bounds){.code = 23u, .least = 0u, .most = 0u};
    }
    return (struct alone_inflow__Bounds){.code = 0u, .least = ((area * (uint64_t)low_after)
            + (uint64_t)low_pumped) - (area * (uint64_t)high_before), .most = ((area * (uint64_t)high_after)
            + (uint64_t)high_pumped) - (area * (uint64_t)low_before)};
}

struct kagutin_inflow_bounds kagutin_inflow(uint64_t area, uint16_t low_before, uint16_t high_before, uint16_t low_after,
        uint16_t high_after, uint32_t low_pumped, uint32_t high_pumped)
{
    struct alone_inflow__Bounds r = alone_inflow__kagutin_inflow(area, low_before, high_before, low_after, high_after, low_pumped,
            high_pumped);

    return (struct kagutin_inflow_bounds){.code = r.code, .least = to_signed(r.least), .most = to_signed(r.most)};
}
