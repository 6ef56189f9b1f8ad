/*
 * Kagutin as one C99 file, made by port/generate.py from the proved program.
 * Do not edit: change the sources under crates/ and run `make dist`.
 *
 * Needs kagutin_gauges.h, memcpy and memset; no heap, no other library, no state
 * of its own. All that is not declared there is static. Where a compiler is
 * known, some helpers have a quicker form; -DKAGUTIN_PLAIN_C leaves them out.
 */
#include <stdbool.h>
#include <stddef.h>
#include <stdint.h>
#include <string.h>

#include "kagutin_gauges.h"

#if defined(__GNUC__) && !defined(__clang__) && SIZE_MAX < UINT64_MAX
/* Counts are 64 bits wide and proved to stay in memory; gcc warns of turns that they never reach. */
#pragma GCC diagnostic ignored "-Waggressive-loop-optimizations"
#endif

struct slice_u8 {
    const uint8_t *ptr;
    size_t len;
};

struct alone_gauges__merge__Kind {
    uint8_t tag;
};

struct alone_gauges__merge__Step {
    uint64_t minute;
    struct alone_gauges__merge__Kind kind;
    uint64_t first;
    uint64_t second;
};

struct alone_gauges__Comparison {
    uint64_t code;
    uint64_t agreeing;
    uint64_t differing;
    uint64_t only_first;
    uint64_t only_second;
};

struct slice_mut_u8 {
    uint8_t *ptr;
    size_t len;
};

#if defined(__GNUC__) && !defined(KAGUTIN_PLAIN_C)
#define QUICK_C 1
#else
#define QUICK_C 0
#endif

#if QUICK_C && defined(__BYTE_ORDER__) && defined(__ORDER_LITTLE_ENDIAN__) && __BYTE_ORDER__ == __ORDER_LITTLE_ENDIAN__ \
    && (defined(__x86_64__) || defined(__i386__) || defined(__ARM_FEATURE_UNALIGNED))
#define WHOLE_WORDS 1
#else
#define WHOLE_WORDS 0
#endif

/* With -DKAGUTIN_CHECK_BUFFERS every call answers 63 (KAGUTIN_BAD_BUFFERS), with zeros in all other fields, if a lent pointer is null or
   two lent buffers share a byte. Without it nothing is asked. */
#ifdef KAGUTIN_CHECK_BUFFERS
struct lent {
    const void *ptr;
    size_t size;
};

static bool are_apart(const struct lent *lent, size_t count)
{
    size_t i, j;

    for (i = 0; i < count; i++) {
        uintptr_t a = (uintptr_t)lent[i].ptr;

        if (lent[i].ptr == NULL || lent[i].size > UINTPTR_MAX - a)
            return false;
        for (j = 0; j < i; j++) {
            uintptr_t b = (uintptr_t)lent[j].ptr;

            if (lent[i].size != 0 && lent[j].size != 0 && a < b + lent[j].size && b < a + lent[i].size)
                return false;
        }
    }
    return true;
}

#define ASK_BUFFERS(result, answer, ...) \
    do { \
        const struct lent all_lent[] = {__VA_ARGS__}; \
        if (!are_apart(all_lent, sizeof all_lent / sizeof all_lent[0])) \
            return (struct result){.answer = 63u}; \
    } while (0);
#else
#define ASK_BUFFERS(result, answer, ...)
#endif

/* Writes the low 2 bytes of a number, lowest byte first. */
static inline void store_2(uint8_t *p, uint64_t v)
{
#if WHOLE_WORDS
    uint16_t x = (uint16_t)v;

    memcpy(p, &x, 2);
#else
    p[0] = (uint8_t)v;
    p[1] = (uint8_t)(v >> 8);
#endif
}

/* Whether the minutes of whole rows rise strictly. */
static inline bool alone_gauges__readings__rises(struct slice_u8 s)
{
    uint64_t t2, t3, t4, t5, t10;

    t2 = 0u;
    t3 = 0u;
    t5 = (uint64_t)s.len / 4u;
    while (t3 < t5) {
        t10 = 4u * t3;
        t4 = (uint64_t)s.ptr[(size_t)t10] + (256u * (uint64_t)s.ptr[(size_t)(t10 + 1u)]);
        if (t4 < t2) {
            return false;
        }
        t2 = t4 + 1u;
        t3 = t3 + 1u;
    }
    return true;
}

/* Whether a strip holds whole rows, no more than 1,440, whose minutes rise strictly. */
static inline bool alone_gauges__readings__acceptable(struct slice_u8 s)
{
    bool t2, t3, t7;

    t7 = ((uint64_t)s.len % 4u) == 0u;
    t3 = t7;
    if (t7) {
        t3 = (uint64_t)s.len <= ((uint64_t)4u * 1440u);
    }
    t2 = t3;
    if (t3) {
        t2 = alone_gauges__readings__rises(s);
    }
    return t2;
}

/* The kind of a minute that both lists have. */
static inline struct alone_gauges__merge__Kind alone_gauges__merge__kind_of(uint64_t a, uint64_t b, uint64_t tolerance)
{
    struct alone_gauges__merge__Kind t6;

    if (((a < b) ? (b - a) : (a - b)) <= tolerance) {
        t6 = (struct alone_gauges__merge__Kind){.tag = 0u};
    } else {
        t6 = (struct alone_gauges__merge__Kind){.tag = 1u};
    }
    return t6;
}

/* The next line of the rows from byte `i` of the first strip and byte `j` of the second on. */
static inline struct alone_gauges__merge__Step alone_gauges__merge__next_line(struct slice_u8 first, struct slice_u8 second,
        uint64_t i, uint64_t j, uint64_t tolerance)
{
    uint64_t t7, t8, t63, t77;
    struct alone_gauges__merge__Kind t9;

    if ((uint64_t)second.len <= j) {
        return (struct alone_gauges__merge__Step){.minute = (uint64_t)first.ptr[(size_t)i]
                + (256u * (uint64_t)first.ptr[(size_t)(i + 1u)]), .kind = (struct alone_gauges__merge__Kind){.tag = 2u},
                .first = i + 4u, .second = j};
    }
    t7 = (uint64_t)second.ptr[(size_t)j] + (256u * (uint64_t)second.ptr[(size_t)(j + 1u)]);
    if ((uint64_t)first.len <= i) {
        return (struct alone_gauges__merge__Step){.minute = t7, .kind = (struct alone_gauges__merge__Kind){.tag = 3u}, .first = i,
                .second = j + 4u};
    }
    t8 = (uint64_t)first.ptr[(size_t)i] + (256u * (uint64_t)first.ptr[(size_t)(i + 1u)]);
    if (t8 < t7) {
        return (struct alone_gauges__merge__Step){.minute = t8, .kind = (struct alone_gauges__merge__Kind){.tag = 2u}, .first = i
                + 4u, .second = j};
    }
    if (t7 < t8) {
        return (struct alone_gauges__merge__Step){.minute = t7, .kind = (struct alone_gauges__merge__Kind){.tag = 3u}, .first = i,
                .second = j + 4u};
    }
    t63 = i + 2u;
    t77 = j + 2u;
    t9 = alone_gauges__merge__kind_of((uint64_t)first.ptr[(size_t)t63] + (256u * (uint64_t)first.ptr[(size_t)(t63 + 1u)]),
            (uint64_t)second.ptr[(size_t)t77] + (256u * (uint64_t)second.ptr[(size_t)(t77 + 1u)]), tolerance);
    return (struct alone_gauges__merge__Step){.minute = t8, .kind = t9, .first = i + 4u, .second = j + 4u};
}

/* The same counts and one more line. */
static inline struct alone_gauges__Comparison alone_gauges__Comparison__with_line(struct alone_gauges__Comparison self,
        struct alone_gauges__merge__Kind kind)
{
    struct alone_gauges__Comparison t3;

    if (kind.tag == 0u) {
        t3 = (struct alone_gauges__Comparison){.code = self.code, .agreeing = self.agreeing + 1u, .differing = self.differing,
                .only_first = self.only_first, .only_second = self.only_second};
    } else if (kind.tag == 1u) {
        t3 = (struct alone_gauges__Comparison){.code = self.code, .agreeing = self.agreeing, .differing = self.differing + 1u,
                .only_first = self.only_first, .only_second = self.only_second};
    } else if (kind.tag == 2u) {
        t3 = (struct alone_gauges__Comparison){.code = self.code, .agreeing = self.agreeing, .differing = self.differing,
                .only_first = self.only_first + 1u, .only_second = self.only_second};
    } else {
        t3 = (struct alone_gauges__Comparison){.code = self.code, .agreeing = self.agreeing, .differing = self.differing,
                .only_first = self.only_first, .only_second = self.only_second + 1u};
    }
    return t3;
}

/* The answer of a call that is done, with the lines of each kind. */
static inline struct alone_gauges__Comparison alone_gauges__merge__tally(struct slice_u8 first, struct slice_u8 second,
        uint64_t tolerance)
{
    uint64_t t4, t6, t7;
    struct alone_gauges__Comparison t5;
    struct alone_gauges__merge__Step t8;

    t4 = (uint64_t)first.len + (uint64_t)second.len;
    t5 = (struct alone_gauges__Comparison){.code = 0u, .agreeing = 0u, .differing = 0u, .only_first = 0u, .only_second = 0u};
    t6 = 0u;
    t7 = 0u;
    while ((t6 + t7) < t4) {
        t8 = alone_gauges__merge__next_line(first, second, t6, t7, tolerance);
        t5 = alone_gauges__Comparison__with_line(t5, t8.kind);
        t6 = t8.first;
        t7 = t8.second;
    }
    return t5;
}

/* Writes the lines, and leaves the bytes past them as they were. */
static inline void alone_gauges__merge__write_lines(struct slice_mut_u8 output, struct slice_u8 first, struct slice_u8 second,
        uint64_t tolerance)
{
    uint64_t t5, t6, t7, t8;
    struct alone_gauges__merge__Step t9;

    t5 = (uint64_t)first.len + (uint64_t)second.len;
    t6 = 0u;
    t7 = 0u;
    t8 = 0u;
    while ((t6 + t7) < t5) {
        t9 = alone_gauges__merge__next_line(first, second, t6, t7, tolerance);
        store_2(output.ptr + (size_t)t8, t9.minute);
        output.ptr[(size_t)(t8 + 2u)] = (uint8_t)((uint32_t)t9.kind.tag + 1u);
        t6 = t9.first;
        t7 = t9.second;
        t8 = t8 + 3u;
    }
}

/* Reports every minute of either list once, rising, as agreeing, differing or in one list only. [S-71] */
static inline struct alone_gauges__Comparison alone_gauges__kagutin_compare_gauges(struct slice_u8 first, struct slice_u8 second,
        struct slice_mut_u8 report, uint16_t tolerance)
{
    struct alone_gauges__Comparison t6;
    bool t8;
    uint64_t t16;

    t8 = alone_gauges__readings__acceptable(first);
    if (!t8) {
        return (struct alone_gauges__Comparison){.code = 22u, .agreeing = 0u, .differing = 0u, .only_first = 0u,
                .only_second = 0u};
    }
    t8 = alone_gauges__readings__acceptable(second);
    if (!t8) {
        return (struct alone_gauges__Comparison){.code = 22u, .agreeing = 0u, .differing = 0u, .only_first = 0u,
                .only_second = 0u};
    }
    t16 = (uint64_t)tolerance;
    t6 = alone_gauges__merge__tally(first, second, t16);
    if ((uint64_t)report.len < (3u * (((t6.agreeing + t6.differing) + t6.only_first) + t6.only_second))) {
        return (struct alone_gauges__Comparison){.code = 22u, .agreeing = 0u, .differing = 0u, .only_first = 0u,
                .only_second = 0u};
    }
    alone_gauges__merge__write_lines(report, first, second, t16);
    return t6;
}

struct kagutin_comparison kagutin_compare_gauges(const uint8_t *first, size_t first_size, const uint8_t *second,
        size_t second_size, uint8_t *report, size_t report_size, uint16_t tolerance)
{
    ASK_BUFFERS(kagutin_comparison, code, {first, first_size}, {second, second_size}, {report, report_size})
    struct alone_gauges__Comparison r = alone_gauges__kagutin_compare_gauges((struct slice_u8){first, first_size},
            (struct slice_u8){second, second_size}, (struct slice_mut_u8){report, report_size}, tolerance);

    return (struct kagutin_comparison){.code = r.code, .agreeing = r.agreeing, .differing = r.differing,
            .only_first = r.only_first, .only_second = r.only_second};
}
