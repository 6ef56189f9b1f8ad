/*
 * Kagutin as one C99 file, made by port/generate.py from the proved program.
 * Do not edit: change the sources under crates/ and run `make dist`.
 *
 * Needs kagutin_chains.h and kagutin_bands.h, memcpy and memset; no heap, no other library but that of kagutin, no state
 * of its own. All that is not declared there is static. Where a compiler is
 * known, some helpers have a quicker form; -DKAGUTIN_PLAIN_C leaves them out.
 */
#include <stdbool.h>
#include <stddef.h>
#include <stdint.h>
#include <string.h>

#include "kagutin_chains.h"
#include "kagutin_bands.h"

#if defined(__GNUC__) && !defined(__clang__) && SIZE_MAX < UINT64_MAX
/* Counts are 64 bits wide and proved to stay in memory; gcc warns of turns that they never reach. */
#pragma GCC diagnostic ignored "-Waggressive-loop-optimizations"
#endif

struct slice_u8 {
    const uint8_t *ptr;
    size_t len;
};

struct slice_mut_u8 {
    uint8_t *ptr;
    size_t len;
};

struct call_ask__Reply {
    uint64_t code;
    uint64_t figure;
    uint64_t size;
};

struct unit_bands_table__rows__Row {
    uint64_t from;
    uint64_t to;
    uint64_t pumps;
};

struct unit_bands_table__packed__Lookup {
    uint64_t code;
    uint64_t from;
    uint64_t to;
    uint64_t pumps;
};

struct unit_bands__Band {
    uint64_t code;
    uint64_t from;
    uint64_t to;
    uint64_t pumps;
};

struct array_u8_192 {
    uint8_t at[192];
};

struct unit_bands_table__judging__Verdict {
    uint64_t code;
    uint64_t millimetre;
};

#if defined(__GNUC__) && !defined(KAGUTIN_PLAIN_C)
#define QUICK_C 1
#else
#define QUICK_C 0
#endif

#if QUICK_C && defined(__BYTE_ORDER__) && defined(__ORDER_LITTLE_ENDIAN__) && __BYTE_ORDER__ == __ORDER_LITTLE_ENDIAN__ \
    && (defined(__x86_64__) || defined(__i386__) || defined(__ARM_FEATURE_UNALIGNED))
#define WHOLE_WORDS 1
#else
#define WHOLE_WORDS 0
#endif

/* With -DKAGUTIN_CHECK_BUFFERS every call answers 63 (KAGUTIN_BAD_BUFFERS), with zeros in all other fields, if a lent pointer is null or
   two lent buffers share a byte. Without it nothing is asked. */
#ifdef KAGUTIN_CHECK_BUFFERS
struct lent {
    const void *ptr;
    size_t size;
};

static bool are_apart(const struct lent *lent, size_t count)
{
    size_t i, j;

    for (i = 0; i < count; i++) {
        uintptr_t a = (uintptr_t)lent[i].ptr;

        if (lent[i].ptr == NULL || lent[i].size > UINTPTR_MAX - a)
            return false;
        for (j = 0; j < i; j++) {
            uintptr_t b = (uintptr_t)lent[j].ptr;

            if (lent[i].size != 0 && lent[j].size != 0 && a < b + lent[j].size && b < a + lent[i].size)
                return false;
        }
    }
    return true;
}

#define ASK_BUFFERS(result, answer, ...) \
    do { \
        const struct lent all_lent[] = {__VA_ARGS__}; \
        if (!are_apart(all_lent, sizeof all_lent / sizeof all_lent[0])) \
            return (struct result){.answer = 63u}; \
    } while (0);
#else
#define ASK_BUFFERS(result, answer, ...)
#endif

/* The number that 2 bytes make, lowest byte first. */
static inline uint64_t load_2(const uint8_t *p)
{
#if WHOLE_WORDS
    uint16_t x;

    memcpy(&x, p, 2);
    return x;
#else
    return p[0] | (uint64_t)p[1] << 8;
#endif
}

static inline struct call_ask__Reply kagutin__kagutin_fetch(struct slice_u8 log, struct slice_u8 area, struct slice_u8 state,
        struct slice_u8 newest, struct slice_mut_u8 blocks, uint64_t writer, uint64_t home)
{
    struct kagutin_reply r = kagutin_fetch(log.ptr, log.len, area.ptr, area.len, state.ptr, state.len, newest.ptr, newest.len,
            blocks.ptr, blocks.len, writer, home);

    return (struct call_ask__Reply){.code = (uint64_t)r.code, .figure = (uint64_t)r.figure, .size = (uint64_t)r.size};
}

/* Whether a strip holds 1 to 32 whole rows. */
static inline bool unit_bands_table__rows__sized(struct slice_u8 s)
{
    if ((uint64_t)s.len == 0u) {
        return false;
    }
    if (((uint64_t)5u * 32u) < (uint64_t)s.len) {
        return false;
    }
    return ((uint64_t)s.len % 5u) == 0u;
}

/* Whether the row at byte `at` is one that a table may have. */
static inline bool unit_bands_table__rows__fit(struct slice_u8 s, uint64_t at)
{
    uint64_t t3;

    t3 = load_2(s.ptr + (size_t)(at + 2u));
    if (t3 < load_2(s.ptr + (size_t)at)) {
        return false;
    }
    if (10000u <= t3) {
        return false;
    }
    return s.ptr[(size_t)(at + 4u)] <= 4u;
}

/* Whether each row is one that a table may have and begins one past the row before it, from 0 to the greatest depth. */
static inline bool unit_bands_table__judging__tiled(struct slice_u8 s)
{
    uint64_t t2, t3;
    bool t5;

    t2 = 0u;
    t3 = 0u;
    while (t3 < (uint64_t)s.len) {
        if (load_2(s.ptr + (size_t)t3) != t2) {
            return false;
        }
        t5 = unit_bands_table__rows__fit(s, t3);
        if (!t5) {
            return false;
        }
        t2 = load_2(s.ptr + (size_t)(t3 + 2u)) + 1u;
        t3 = t3 + 5u;
    }
    return t2 == 10000u;
}

/* Whether all rows of a strip of whole rows are such. */
static inline bool unit_bands_table__rows__all_fit(struct slice_u8 s)
{
    uint64_t t2;
    bool t4;

    t2 = 0u;
    while (t2 < (uint64_t)s.len) {
        t4 = unit_bands_table__rows__fit(s, t2);
        if (!t4) {
            return false;
        }
        t2 = t2 + 5u;
    }
    return true;
}

/* Whether a strip holds 1 to 32 whole rows that a table may have. */
static inline bool unit_bands_table__rows__sound(struct slice_u8 s)
{
    bool t2;

    t2 = unit_bands_table__rows__sized(s);
    if (!t2) {
        return false;
    }
    return unit_bands_table__rows__all_fit(s);
}

/* The millimetres of all rows together. */
static inline uint64_t unit_bands_table__judging__width(struct slice_u8 s)
{
    uint64_t t2, t3;

    t2 = 0u;
    t3 = 0u;
    while (t3 < (uint64_t)s.len) {
        t2 = t2 + ((load_2(s.ptr + (size_t)(t3 + 2u)) + 1u) - load_2(s.ptr + (size_t)t3));
        t3 = t3 + 5u;
    }
    return t2;
}

/* The byte at which the first row stands that begins at a millimetre; the strip's length if none does. */
static inline uint64_t unit_bands_table__rows__starter(struct slice_u8 s, uint64_t mm)
{
    uint64_t t3;

    t3 = 0u;
    while (t3 < (uint64_t)s.len) {
        if (load_2(s.ptr + (size_t)t3) == mm) {
            return t3;
        }
        t3 = t3 + 5u;
    }
    return t3;
}

/* Whether rows of as many millimetres as there are depths follow one another, in any order, from 0 to the greatest depth. */
static inline bool unit_bands_table__judging__chained(struct slice_u8 s)
{
    uint64_t t2, t3;

    t2 = 0u;
    while (t2 < 10000u) {
        t3 = unit_bands_table__rows__starter(s, t2);
        if ((uint64_t)s.len <= t3) {
            return false;
        }
        t2 = load_2(s.ptr + (size_t)(t3 + 2u)) + 1u;
    }
    return true;
}

/* Whether a strip of rows is accepted, with no refusal told. */
static inline bool unit_bands_table__judging__accepts(struct slice_u8 rows)
{
    bool t2, t4;
    uint64_t t5;

    t2 = unit_bands_table__rows__sized(rows);
    if (!t2) {
        return false;
    }
    t4 = unit_bands_table__judging__tiled(rows);
    if (t4) {
        return true;
    }
    t2 = unit_bands_table__rows__sound(rows);
    if (!t2) {
        return false;
    }
    t5 = unit_bands_table__judging__width(rows);
    if (t5 != 10000u) {
        return false;
    }
    return unit_bands_table__judging__chained(rows);
}

/* The number of rows of the table that the blocks hold; 0 if that is no acceptable one. */
static inline uint64_t unit_bands_table__packed__judge_packed(struct slice_u8 packed)
{
    uint64_t t2;
    bool t5;

    t2 = (uint64_t)packed.ptr[0u];
    if (32u < t2) {
        return 0u;
    }
    t5 = unit_bands_table__judging__accepts((struct slice_u8){packed.ptr + 1u, (size_t)((1u + (5u * t2)) - 1u)});
    if (!t5) {
        return 0u;
    }
    return t2;
}

/* Whether a millimetre lies in the row at byte `at`. */
static inline bool unit_bands_table__rows__holds(struct slice_u8 s, uint64_t at, uint64_t mm)
{
    if (mm < load_2(s.ptr + (size_t)at)) {
        return false;
    }
    return mm <= load_2(s.ptr + (size_t)(at + 2u));
}

/* The byte at which the first row begins that a millimetre lies in; the strip's length if it lies in none. */
static inline uint64_t unit_bands_table__rows__holder(struct slice_u8 s, uint64_t mm)
{
    uint64_t t3;
    bool t6;

    t3 = 0u;
    while (t3 < (uint64_t)s.len) {
        t6 = unit_bands_table__rows__holds(s, t3, mm);
        if (t6) {
            return t3;
        }
        t3 = t3 + 5u;
    }
    return t3;
}

/* The first row that a millimetre lies in; zeros if it lies in none. */
static inline struct unit_bands_table__rows__Row unit_bands_table__rows__find(struct slice_u8 s, uint64_t mm)
{
    uint64_t t3;

    t3 = unit_bands_table__rows__holder(s, mm);
    if ((uint64_t)s.len <= t3) {
        return (struct unit_bands_table__rows__Row){.from = 0u, .to = 0u, .pumps = 0u};
    }
    return (struct unit_bands_table__rows__Row){.from = load_2(s.ptr + (size_t)t3), .to = load_2(s.ptr + (size_t)(t3 + 2u)),
            .pumps = (uint64_t)s.ptr[(size_t)(t3 + 4u)]};
}

/* The row that a millimetre lies in, of the table that the blocks hold; 11 if that is no acceptable one. */
static inline struct unit_bands_table__packed__Lookup unit_bands_table__packed__look_up(struct slice_u8 packed, uint64_t mm)
{
    uint64_t t3;
    struct unit_bands_table__rows__Row t4;

    t3 = unit_bands_table__packed__judge_packed(packed);
    if (t3 == 0u) {
        return (struct unit_bands_table__packed__Lookup){.code = 11u, .from = 0u, .to = 0u, .pumps = 0u};
    }
    t4 = unit_bands_table__rows__find((struct slice_u8){packed.ptr + 1u, (size_t)((1u + (5u * t3)) - 1u)}, mm);
    return (struct unit_bands_table__packed__Lookup){.code = 0u, .from = t4.from, .to = t4.to, .pumps = t4.pumps};
}

/* The row of the table that a depth in millimetres lies in; 11 above 9,999, or where there is no table. [S-66] */
static inline struct unit_bands__Band unit_bands__kagutin_bands_look_up(struct slice_u8 log, struct slice_u8 area,
        struct slice_u8 state, struct slice_u8 newest, uint64_t writer, uint64_t mm)
{
    struct array_u8_192 t7;
    struct call_ask__Reply t8;
    struct unit_bands_table__packed__Lookup t9;

    if (10000u <= mm) {
        return (struct unit_bands__Band){.code = 11u, .from = 0u, .to = 0u, .pumps = 0u};
    }
    memset(&t7, 0u, sizeof t7);
    t8 = kagutin__kagutin_fetch(log, area, state, newest, (struct slice_mut_u8){t7.at, 192u}, writer, 12u);
    if (t8.code != 0u) {
        return (struct unit_bands__Band){.code = t8.code, .from = 0u, .to = 0u, .pumps = 0u};
    }
    t9 = unit_bands_table__packed__look_up((struct slice_u8){t7.at, 192u}, mm);
    return (struct unit_bands__Band){.code = t9.code, .from = t9.from, .to = t9.to, .pumps = t9.pumps};
}

/* Whether each row begins one past the row before it, the first at 0, and the last ends at the greatest depth. */
static inline bool unit_bands_table__judging__rising(struct slice_u8 s)
{
    uint64_t t2, t3;

    t2 = 0u;
    t3 = 0u;
    while (t3 < (uint64_t)s.len) {
        if (load_2(s.ptr + (size_t)t3) != t2) {
            return false;
        }
        t2 = load_2(s.ptr + (size_t)(t3 + 2u)) + 1u;
        t3 = t3 + 5u;
    }
    return t2 == 10000u;
}

/* The lowest millimetre in no row, from row to row; `DEPTHS` if there is none. */
static inline uint64_t unit_bands_table__judging__walk(struct slice_u8 s)
{
    uint64_t t2, t3;

    t2 = 0u;
    while (t2 < 10000u) {
        t3 = unit_bands_table__rows__holder(s, t2);
        if ((uint64_t)s.len <= t3) {
            return t2;
        }
        t2 = load_2(s.ptr + (size_t)(t3 + 2u)) + 1u;
    }
    return 10000u;
}

/* The lowest millimetre in no row; `DEPTHS` if there is none. */
static inline uint64_t unit_bands_table__judging__uncovered(struct slice_u8 s)
{
    bool t2;

    t2 = unit_bands_table__judging__rising(s);
    if (t2) {
        return 10000u;
    }
    return unit_bands_table__judging__walk(s);
}

/* The lowest millimetre in two rows; `DEPTHS` if there is none. */
static inline uint64_t unit_bands_table__judging__common(uint64_t from, uint64_t to, uint64_t other_from, uint64_t other_to)
{
    uint64_t t5, t7;

    if (from < other_from) {
        t7 = other_from;
    } else {
        t7 = from;
    }
    t5 = t7;
    if (to < t5) {
        return 10000u;
    }
    if (other_to < t5) {
        return 10000u;
    }
    return t5;
}

static inline uint64_t unit_bands_table__judging__lesser(uint64_t a, uint64_t b)
{
    uint64_t t4;

    if (a < b) {
        t4 = a;
    } else {
        t4 = b;
    }
    return t4;
}

/* The lowest millimetre in the row at byte `at` and in a row behind it. */
static inline uint64_t unit_bands_table__judging__shared(struct slice_u8 s, uint64_t at)
{
    uint64_t t3, t4, t5, t6, t10;

    t3 = load_2(s.ptr + (size_t)at);
    t4 = load_2(s.ptr + (size_t)(at + 2u));
    t5 = 10000u;
    t6 = at + 5u;
    while (t6 < (uint64_t)s.len) {
        t10 = unit_bands_table__judging__common(t3, t4, load_2(s.ptr + (size_t)t6), load_2(s.ptr + (size_t)(t6 + 2u)));
        t5 = unit_bands_table__judging__lesser(t5, t10);
        t6 = t6 + 5u;
    }
    return t5;
}

/* The lowest millimetre in two rows or more; `DEPTHS` if there is none. */
static inline uint64_t unit_bands_table__judging__doubled(struct slice_u8 s)
{
    uint64_t t2, t3, t6;

    t2 = 10000u;
    t3 = 0u;
    while (t3 < (uint64_t)s.len) {
        t6 = unit_bands_table__judging__shared(s, t3);
        t2 = unit_bands_table__judging__lesser(t2, t6);
        t3 = t3 + 5u;
    }
    return t2;
}

/* What a strip of rows is answered. */
static inline struct unit_bands_table__judging__Verdict unit_bands_table__judging__judge(struct slice_u8 rows)
{
    uint64_t t2, t5;
    bool t3;

    t3 = unit_bands_table__rows__sound(rows);
    if (!t3) {
        return (struct unit_bands_table__judging__Verdict){.code = 11u, .millimetre = 0u};
    }
    t2 = unit_bands_table__judging__uncovered(rows);
    if (t2 < 10000u) {
        return (struct unit_bands_table__judging__Verdict){.code = 12u, .millimetre = t2};
    }
    t5 = unit_bands_table__judging__width(rows);
    if (t5 == 10000u) {
        return (struct unit_bands_table__judging__Verdict){.code = 0u, .millimetre = 0u};
    }
    t5 = unit_bands_table__judging__doubled(rows);
    return (struct unit_bands_table__judging__Verdict){.code = 13u, .millimetre = t5};
}

/* The byte `i` of a strip, zero behind it. */
static inline uint8_t unit_bands_table__packed__byte(struct slice_u8 rows, uint64_t i)
{
    uint8_t t5;

    if (i < (uint64_t)rows.len) {
        t5 = rows.ptr[(size_t)i];
    } else {
        t5 = 0u;
    }
    return t5;
}

/* Packs the rows of an accepted table, over whatever the blocks held. */
static inline void unit_bands_table__packed__pack(struct slice_u8 rows, struct slice_mut_u8 packed)
{
    uint64_t t3;
    uint8_t t10;

    packed.ptr[0u] = (uint8_t)(((uint64_t)rows.len / 5u) % 256u);
    t3 = 1u;
    while (t3 < 192u) {
        t10 = unit_bands_table__packed__byte(rows, t3 - 1u);
        packed.ptr[(size_t)t3] = t10;
        t3 = t3 + 1u;
    }
}

static inline struct call_ask__Reply kagutin__kagutin_transact(struct slice_mut_u8 log, struct slice_u8 area,
        struct slice_mut_u8 state, struct slice_mut_u8 newest, struct slice_u8 blocks, struct slice_mut_u8 batch, uint64_t writer,
        uint64_t home)
{
    struct kagutin_reply r = kagutin_transact(log.ptr, log.len, area.ptr, area.len, state.ptr, state.len, newest.ptr, newest.len,
            blocks.ptr, blocks.len, batch.ptr, batch.len, writer, home);

    return (struct call_ask__Reply){.code = (uint64_t)r.code, .figure = (uint64_t)r.figure, .size = (uint64_t)r.size};
}

/* Sets the table; the figure is the ticket of its commit, with 12 and 13 the lowest millimetre in no row or in two. [S-65] */
static inline struct call_ask__Reply unit_bands__kagutin_bands_set(struct slice_mut_u8 log, struct slice_u8 area,
        struct slice_mut_u8 state, struct slice_mut_u8 newest, struct slice_mut_u8 batch, struct slice_u8 rows, uint64_t writer)
{
    struct unit_bands_table__judging__Verdict t8;
    struct array_u8_192 t9;

    t8 = unit_bands_table__judging__judge(rows);
    if (t8.code != 0u) {
        return (struct call_ask__Reply){.code = t8.code, .figure = t8.millimetre, .size = 0u};
    }
    memset(&t9, 0u, sizeof t9);
    unit_bands_table__packed__pack(rows, (struct slice_mut_u8){t9.at, 192u});
    return kagutin__kagutin_transact(log, area, state, newest, (struct slice_u8){t9.at, 192u}, batch, writer, 12u);
}

struct kagutin_band kagutin_bands_look_up(const uint8_t *log, size_t log_size, const uint8_t *area, size_t area_size,
        const uint8_t *state, size_t state_size, const uint8_t *newest, size_t newest_size, uint64_t writer, uint64_t mm)
{
    ASK_BUFFERS(kagutin_band, code, {log, log_size}, {area, area_size}, {state, state_size}, {newest, newest_size})
    struct unit_bands__Band r = unit_bands__kagutin_bands_look_up((struct slice_u8){log, log_size}, (struct slice_u8){area,
            area_size}, (struct slice_u8){state, state_size}, (struct slice_u8){newest, newest_size}, writer, mm);

    return (struct kagutin_band){.code = r.code, .from = r.from, .to = r.to, .pumps = r.pumps};
}

struct kagutin_reply kagutin_bands_set(uint8_t *log, size_t log_size, const uint8_t *area, size_t area_size, uint8_t *state,
        size_t state_size, uint8_t *newest, size_t newest_size, uint8_t *batch, size_t batch_size, const uint8_t *rows,
        size_t rows_size, uint64_t writer)
{
    ASK_BUFFERS(kagutin_reply, code, {log, log_size}, {area, area_size}, {state, state_size}, {newest, newest_size}, {batch,
            batch_size}, {rows, rows_size})
    struct call_ask__Reply r = unit_bands__kagutin_bands_set((struct slice_mut_u8){log, log_size}, (struct slice_u8){area,
            area_size}, (struct slice_mut_u8){state, state_size}, (struct slice_mut_u8){newest, newest_size},
            (struct slice_mut_u8){batch, batch_size}, (struct slice_u8){rows, rows_size}, writer);

    return (struct kagutin_reply){.code = r.code, .figure = r.figure, .size = r.size};
}
