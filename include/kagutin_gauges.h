/*
 * Two level gauges of one pit, such as a pressure cell and an echo sounder,
 * compared minute by minute. Links with libgauges.a alone; no store is needed.
 *
 * A list is a strip of 4-byte rows: the minute, then millimetres, 16 bits
 * each, lowest byte first. Minutes are any 16 bits and rise strictly. A report
 * is a strip of 3-byte lines: the minute, then a byte for the kind.
 *
 * The call finishes for any bytes and lengths, and uses no heap. Pointers must
 * not be null, also with length 0, and no two lent buffers may share a byte, or
 * else memory outside them may be read and written. Built with
 * -DKAGUTIN_CHECK_BUFFERS, the call asks this first, and answers 63 with counts
 * of 0 if it is not so.
 */
#ifndef KAGUTIN_GAUGES_H
#define KAGUTIN_GAUGES_H

#include <stddef.h>
#include <stdint.h>

#ifdef __cplusplus
extern "C" {
#endif

#define KAGUTIN_READING_SIZE 4
#define KAGUTIN_MAX_READINGS 1440
#define KAGUTIN_LINE_SIZE 3

/* Answer of a comparison that is not done; 0 is done. */
#define KAGUTIN_BAD_LISTS 22

/* Kinds of lines. */
enum kagutin_line_kind {
    KAGUTIN_AGREEING = 1,   /* both have the minute, at most the tolerance apart */
    KAGUTIN_DIFFERING = 2,  /* both have it, further apart */
    KAGUTIN_ONLY_FIRST = 3, /* only the first list has it */
    KAGUTIN_ONLY_SECOND = 4 /* only the second list has it */
};

/* The answer, and the lines of each kind. The report is as long as all four together, in lines. */
struct kagutin_comparison {
    uint64_t code;
    uint64_t agreeing;
    uint64_t differing;
    uint64_t only_first;
    uint64_t only_second;
};

/* The longest report that two lists of so many readings can make, in bytes. */
static inline size_t kagutin_report_size(size_t first_readings, size_t second_readings)
{
    return KAGUTIN_LINE_SIZE * (first_readings + second_readings);
}

/*
 * Writes a line for every minute of either list, each once, rising, to the
 * front of the report, and counts the lines of each kind. The counts add up to
 * the different minutes. Bytes past the report stay as they were.
 * Answers 22: a list that ends inside a row, has more than 1,440 rows or whose
 * minutes do not rise strictly, or a report too short for the lines. Then the
 * counts are 0 and no byte of the report is touched. Empty lists are fine.
 */
struct kagutin_comparison kagutin_compare_gauges(const uint8_t *first, size_t first_size, const uint8_t *second,
                                                 size_t second_size, uint8_t *report, size_t report_size, uint16_t tolerance);

#ifdef __cplusplus
}
#endif

#endif
