/*
 * Kagutin as one C99 file, made by port/generate.py from the proved program.
 * Do not edit: change the sources under crates/ and run `make dist`.
 *
 * Needs kagutin.h and kagutin_chains.h, memcpy and memset; no heap, no other library, no state
 * of its own. All that is not declared there is static. Where a compiler is
 * known, some helpers have a quicker form; -DKAGUTIN_PLAIN_C leaves them out.
 */
#include <stdbool.h>
#include <stddef.h>
#include <stdint.h>
#include <string.h>

#include "kagutin.h"
#include "kagutin_chains.h"

#if defined(__GNUC__) && !defined(__clang__) && SIZE_MAX < UINT64_MAX
/* Counts are 64 bits wide and proved to stay in memory; gcc warns of turns that they never reach. */
#pragma GCC diagnostic ignored "-Waggressive-loop-optimizations"
#endif

struct slice_u8 {
    const uint8_t *ptr;
    size_t len;
};

struct model__State {
    uint64_t groups;
    uint64_t homes;
    uint64_t start;
    uint64_t next;
    uint64_t filled;
    uint64_t settled;
    uint64_t fenced;
    uint64_t durable;
    uint64_t last;
    uint64_t round;
    uint64_t cursor;
};

struct model__Writer {
    uint64_t mode;
    uint64_t home;
    uint64_t first;
    uint64_t count;
};

struct slice_mut_u8 {
    uint8_t *ptr;
    size_t len;
};

struct call_ask__Reply {
    uint64_t code;
    uint64_t figure;
    uint64_t size;
};

struct log_scan__slots__RingSlot {
    uint64_t slot;
    uint64_t turn;
};

struct array_u8_2 {
    uint8_t at[2];
};

struct model__Tag {
    uint8_t tag;
    uint64_t u64_0;
    uint64_t u64_1;
    uint64_t u64_2;
    uint64_t u64_3;
};

struct log_newest__commits__Pass {
    uint64_t number;
    struct log_scan__slots__RingSlot at;
    uint64_t done;
};

struct log_shown__ring__RingPlace {
    uint64_t number;
    uint64_t slot;
    uint64_t turn;
    uint64_t k;
};

struct call_open__opening__Shape {
    uint64_t groups;
    uint64_t homes;
    uint64_t start;
};

struct log_scan__commits__Progress {
    uint64_t end;
    uint64_t number;
    uint64_t failed;
};

struct slice_mut_u16 {
    uint16_t *ptr;
    size_t len;
};

struct log_scan__commits__Found {
    uint64_t end;
    uint64_t number;
};

struct array_u64_7 {
    uint64_t at[7];
};

struct slice_mut_u64 {
    uint64_t *ptr;
    size_t len;
};

struct slice_u16 {
    const uint16_t *ptr;
    size_t len;
};

struct array_u64_1 {
    uint64_t at[1];
};

struct array_u16_64 {
    uint16_t at[64];
};

struct log_tables__tables__Replay {
    uint64_t end;
    uint64_t number;
    uint64_t size;
    uint64_t next;
    bool more;
};

struct array_u16_448 {
    uint16_t at[448];
};

struct array_u16_1024 {
    uint16_t at[1024];
};

struct array_u16_7168 {
    uint16_t at[7168];
};

struct array_u8_32 {
    uint8_t at[32];
};

struct log_replay__stepping__Reached {
    uint64_t home;
    uint64_t done;
    uint64_t rest;
};

struct log_tables__steps__Made {
    uint64_t size;
    uint64_t next;
    bool more;
};

struct array_u16_896 {
    uint16_t at[896];
};

struct array_u16_1792 {
    uint16_t at[1792];
};

struct array_u16_3584 {
    uint16_t at[3584];
};

struct model__Holder {
    uint64_t writer;
    uint64_t first;
};

struct model__Usage {
    uint64_t code;
    uint64_t live;
    uint64_t dead;
    uint64_t free;
    uint64_t promised;
    uint64_t holder;
    uint64_t first;
};

struct object_runner__Cursor {
    uint64_t at;
    uint64_t headed;
    uint64_t stage;
};

struct object_runner__Action {
    uint64_t kind;
    uint64_t area;
    uint64_t offset;
    uint64_t size;
    uint64_t source;
    uint64_t from;
    uint64_t at;
    uint64_t headed;
    uint64_t stage;
};

#if defined(__GNUC__) && !defined(KAGUTIN_PLAIN_C)
#define QUICK_C 1
#else
#define QUICK_C 0
#endif

#if QUICK_C && defined(__BYTE_ORDER__) && defined(__ORDER_LITTLE_ENDIAN__) && __BYTE_ORDER__ == __ORDER_LITTLE_ENDIAN__ \
    && (defined(__x86_64__) || defined(__i386__) || defined(__ARM_FEATURE_UNALIGNED))
#define WHOLE_WORDS 1
#else
#define WHOLE_WORDS 0
#endif

#if QUICK_C && !defined(__clang__) && !defined(__OPTIMIZE_SIZE__) && __GNUC__ >= 8
#define UNROLL _Pragma("GCC unroll 4")
#else
#define UNROLL
#endif

#if QUICK_C
#define APART __attribute__((noinline))
#else
#define APART
#endif

/* With -DKAGUTIN_CHECK_BUFFERS every call answers 63 (KAGUTIN_BAD_BUFFERS), with zeros in all other fields, if a lent pointer is null or
   two lent buffers share a byte. Without it nothing is asked. */
#ifdef KAGUTIN_CHECK_BUFFERS
struct lent {
    const void *ptr;
    size_t size;
};

static bool are_apart(const struct lent *lent, size_t count)
{
    size_t i, j;

    for (i = 0; i < count; i++) {
        uintptr_t a = (uintptr_t)lent[i].ptr;

        if (lent[i].ptr == NULL || lent[i].size > UINTPTR_MAX - a)
            return false;
        for (j = 0; j < i; j++) {
            uintptr_t b = (uintptr_t)lent[j].ptr;

            if (lent[i].size != 0 && lent[j].size != 0 && a < b + lent[j].size && b < a + lent[i].size)
                return false;
        }
    }
    return true;
}

#define ASK_BUFFERS(result, answer, ...) \
    do { \
        const struct lent all_lent[] = {__VA_ARGS__}; \
        if (!are_apart(all_lent, sizeof all_lent / sizeof all_lent[0])) \
            return (struct result){.answer = 63u}; \
    } while (0);
#else
#define ASK_BUFFERS(result, answer, ...)
#endif

/* The number that 2 bytes make, lowest byte first. */
static inline uint64_t load_2(const uint8_t *p)
{
#if WHOLE_WORDS
    uint16_t x;

    memcpy(&x, p, 2);
    return x;
#else
    return p[0] | (uint64_t)p[1] << 8;
#endif
}

/* The number that 4 bytes make, lowest byte first. */
static inline uint64_t load_4(const uint8_t *p)
{
#if WHOLE_WORDS
    uint32_t x;

    memcpy(&x, p, 4);
    return x;
#else
    return p[0] | (uint64_t)p[1] << 8 | (uint64_t)p[2] << 16 | (uint64_t)p[3] << 24;
#endif
}

/* The number that 8 bytes make, lowest byte first. */
static inline uint64_t load_8(const uint8_t *p)
{
#if WHOLE_WORDS
    uint64_t x;

    memcpy(&x, p, 8);
    return x;
#else
    return p[0] | (uint64_t)p[1] << 8 | (uint64_t)p[2] << 16 | (uint64_t)p[3] << 24
        | (uint64_t)p[4] << 32 | (uint64_t)p[5] << 40 | (uint64_t)p[6] << 48 | (uint64_t)p[7] << 56;
#endif
}

/* Writes the low 2 bytes of a number, lowest byte first. */
static inline void store_2(uint8_t *p, uint64_t v)
{
#if WHOLE_WORDS
    uint16_t x = (uint16_t)v;

    memcpy(p, &x, 2);
#else
    p[0] = (uint8_t)v;
    p[1] = (uint8_t)(v >> 8);
#endif
}

/* Writes the low 4 bytes of a number, lowest byte first. */
static inline void store_4(uint8_t *p, uint64_t v)
{
#if WHOLE_WORDS
    uint32_t x = (uint32_t)v;

    memcpy(p, &x, 4);
#else
    p[0] = (uint8_t)v;
    p[1] = (uint8_t)(v >> 8);
    p[2] = (uint8_t)(v >> 16);
    p[3] = (uint8_t)(v >> 24);
#endif
}

/* Writes the low 8 bytes of a number, lowest byte first. */
static inline void store_8(uint8_t *p, uint64_t v)
{
#if WHOLE_WORDS
    uint64_t x = (uint64_t)v;

    memcpy(p, &x, 8);
#else
    p[0] = (uint8_t)v;
    p[1] = (uint8_t)(v >> 8);
    p[2] = (uint8_t)(v >> 16);
    p[3] = (uint8_t)(v >> 24);
    p[4] = (uint8_t)(v >> 32);
    p[5] = (uint8_t)(v >> 40);
    p[6] = (uint8_t)(v >> 48);
    p[7] = (uint8_t)(v >> 56);
#endif
}

/* How many bits are set. */
static inline uint32_t count_ones(uint64_t x)
{
    if (x == 0u)
        return 0u;
    x = x - (x >> 1 & UINT64_C(0x5555555555555555));
    x = (x & UINT64_C(0x3333333333333333)) + (x >> 2 & UINT64_C(0x3333333333333333));
    x = (x + (x >> 4)) & UINT64_C(0x0f0f0f0f0f0f0f0f);
    return (uint32_t)(x * UINT64_C(0x0101010101010101) >> 56);
}

/* How many bits below the lowest one that is set; 64 of zero. */
static inline uint32_t trailing_zeros(uint64_t x)
{
#if QUICK_C
    return x == 0u ? 64u : (uint32_t)__builtin_ctzll(x);
#else
    return count_ones(~x & (x - 1u));
#endif
}

/* The number of groups in a log area of `len` bytes. */
static inline uint64_t base_areas__lengths__log_groups(uint64_t len)
{
    if (len < 64u) {
        return 0u;
    }
    return (len - 64u) / 512u;
}

/* Whether a log area may have `len` bytes: a header and 4 to 1,024 whole groups. */
static inline bool base_areas__lengths__log_right(uint64_t len)
{
    uint64_t t2;

    t2 = base_areas__lengths__log_groups(len);
    if (t2 < 4u) {
        return false;
    }
    if (1024u < t2) {
        return false;
    }
    return len == (64u + (512u * t2));
}

/* Whether a data area may have `len` bytes: 1 to 65,535 whole homes. */
static inline bool base_areas__lengths__data_right(uint64_t len)
{
    uint64_t t2;

    t2 = len / 64u;
    if (t2 < 1u) {
        return false;
    }
    if (65535u < t2) {
        return false;
    }
    return len == (64u * t2);
}

/* Whether the lengths of both copies and of the strip are right. */
static inline bool call_ask__lengths_right(struct slice_u8 log, struct slice_u8 area, struct slice_u8 state)
{
    bool t4;

    t4 = base_areas__lengths__log_right((uint64_t)log.len);
    if (!t4) {
        return false;
    }
    t4 = base_areas__lengths__data_right((uint64_t)area.len);
    if (!t4) {
        return false;
    }
    return (uint64_t)state.len == 1024u;
}

/* Whether the numbers of groups and homes are `groups` and `homes`, and the group numbers and the places filled are in order. */
static inline bool base_order__numbers__groups_in_order(struct slice_u8 s, uint64_t groups, uint64_t homes)
{
    uint64_t t4, t5, t6;

    if (load_8(s.ptr) != groups) {
        return false;
    }
    if (load_8(s.ptr + 8u) != homes) {
        return false;
    }
    t4 = load_8(s.ptr + 16u);
    if (UINT64_C(0x800000000000) < t4) {
        return false;
    }
    t5 = load_8(s.ptr + 32u);
    if (6u < t5) {
        return false;
    }
    t6 = load_8(s.ptr + 24u) - t4;
    if (t6 < groups) {
        return true;
    }
    if (t6 != groups) {
        return false;
    }
    return t5 == 0u;
}

/* Whether the other numbers but the round are in order, where the log has `whole` positions from position `low` to the next
   group, and `all` with those filled. What lies between two others is compared once, by its distance from the lower one. */
static inline bool base_order__numbers__bounds_in_order(struct slice_u8 s, uint64_t low, uint64_t whole, uint64_t all)
{
    uint64_t t5, t6;

    t5 = load_8(s.ptr + 48u);
    if (t5 < load_8(s.ptr + 56u)) {
        return false;
    }
    t6 = t5 - low;
    if (whole < t6) {
        return false;
    }
    if (t6 < (load_8(s.ptr + 40u) - low)) {
        return false;
    }
    return load_8(s.ptr + 64u) <= (low + all);
}

/* Whether the record of writer `t` / 8 is in order, which holds a block: its home is below D, and if it has logged entries, which
   bit `t` of twice the word of the modes tells, the positions since its first one are among those of the log, and hold its
   entries. Bit `t` of the word itself is its mode's second one, so that its numbers begin three bytes further on for each bit. */
static inline bool base_order__records__record_in_order(struct slice_u8 s, uint64_t homes, uint64_t low, uint64_t all,
        uint64_t twice, uint64_t t)
{
    uint64_t t7, t8;

    t7 = (3u * t) + 125u;
    if (homes <= load_8(s.ptr + (size_t)t7)) {
        return false;
    }
    if (((twice >> (t & 63u)) % 2u) == 0u) {
        return true;
    }
    t8 = (low + all) - load_8(s.ptr + (size_t)(t7 + 8u));
    if (all < t8) {
        return false;
    }
    return load_8(s.ptr + (size_t)(t7 + 16u)) < t8;
}

/* Whether the records of all eight writers are in order, whatever is promised to them. */
static inline bool base_order__records__records_in_order(struct slice_u8 s, uint64_t homes, uint64_t low, uint64_t all)
{
    uint64_t t5, t6, t7;
    bool t11;

    t5 = load_8(s.ptr + 104u);
    t6 = t5 & UINT64_C(0xfefefefefefefefe);
    if (t6 == 0u) {
        return true;
    }
    if ((t5 & UINT64_C(0xfcfcfcfcfcfcfcfc)) != 0u) {
        return false;
    }
    t7 = 2u * t5;
    while (t6 != 0u) {
        t11 = base_order__records__record_in_order(s, homes, low, all, t7, (uint64_t)trailing_zeros(t6));
        if (!t11) {
            return false;
        }
        t6 = t6 & (t6 - 1u);
    }
    return true;
}

/* Whether the position that a round has fixed lies from the settled to the fenced one, or there is no round. */
static inline bool base_order__pending__round_in_order(struct model__State st)
{
    if (st.round == 0u) {
        return true;
    }
    if (st.round <= st.settled) {
        return false;
    }
    return (st.round - 1u) <= st.fenced;
}

/* How many places the promise to writer `w` asks for, and more than any log has if the writer is idle. */
static inline uint64_t base_order__pending__asked(struct slice_u8 s, uint64_t w)
{
    uint64_t t3;

    t3 = load_2(s.ptr + (size_t)(72u + (2u * w)));
    if (t3 == 0u) {
        return 0u;
    }
    if ((uint64_t)s.ptr[(size_t)(104u + w)] == 0u) {
        return 7169u;
    }
    return t3;
}

/* The same of four writers from `from` on. Their promises are read as one word first: mostly there is none. */
static inline uint64_t base_order__pending__asked_of_four(struct slice_u8 s, uint64_t from)
{
    uint64_t t3, t7, t9, t11;

    if (load_8(s.ptr + (size_t)(72u + (2u * from))) == 0u) {
        return 0u;
    }
    t3 = base_order__pending__asked(s, from);
    t7 = base_order__pending__asked(s, from + 1u);
    t9 = base_order__pending__asked(s, from + 2u);
    t11 = base_order__pending__asked(s, from + 3u);
    return ((t3 + t7) + t9) + t11;
}

/* Whether the round is in order, and there are as many places as the promises ask for. */
static inline bool base_order__pending__pending_in_order(struct slice_u8 s)
{
    struct model__State t2;
    bool t3;
    uint64_t t5, t6, t10, t11;

    t10 = load_8(s.ptr);
    t11 = load_8(s.ptr + 8u);
    t2 = (struct model__State){.groups = t10, .homes = t11, .start = load_8(s.ptr + 16u), .next = load_8(s.ptr + 24u),
            .filled = load_8(s.ptr + 32u), .settled = load_8(s.ptr + 40u), .fenced = load_8(s.ptr + 48u), .durable = load_8(s.ptr
            + 56u), .last = load_8(s.ptr + 64u), .round = load_8(s.ptr + 88u), .cursor = load_8(s.ptr + 96u)};
    t3 = base_order__pending__round_in_order(t2);
    if (!t3) {
        return false;
    }
    t5 = base_order__pending__asked_of_four(s, 0u);
    t6 = base_order__pending__asked_of_four(s, 4u);
    return (t5 + t6) <= ((7u * (t2.start + t2.groups)) - ((7u * t2.next) + t2.filled));
}

/* Whether nothing is promised to any writer: the eight promises are zero as two words. */
static inline bool base_state__promises__none_promised(struct slice_u8 s)
{
    if (load_8(s.ptr + 72u) != 0u) {
        return false;
    }
    return load_8(s.ptr + 80u) == 0u;
}

/* Question 2 for a log of `groups` groups and `homes` homes. What is mostly not there is asked for last, by a function of its
   own. [S-48] */
static inline bool base_order__whole__whole_in_order(struct slice_u8 s, uint64_t groups, uint64_t homes)
{
    uint64_t t4, t5, t6, t7;
    bool t8;

    t8 = base_order__numbers__groups_in_order(s, groups, homes);
    if (!t8) {
        return false;
    }
    t4 = load_8(s.ptr + 16u);
    t5 = 7u * t4;
    t6 = 7u * (load_8(s.ptr + 24u) - t4);
    t7 = t6 + load_8(s.ptr + 32u);
    t8 = base_order__numbers__bounds_in_order(s, t5, t6, t7);
    if (!t8) {
        return false;
    }
    t8 = base_order__records__records_in_order(s, homes, t5, t7);
    if (!t8) {
        return false;
    }
    if (load_8(s.ptr + 88u) != 0u) {
        return base_order__pending__pending_in_order(s);
    }
    t8 = base_state__promises__none_promised(s);
    if (!t8) {
        return base_order__pending__pending_in_order(s);
    }
    return true;
}

/* Questions 1 and 2: 0 if the lengths are right and the strip is in order, else the number of the refusal. */
static inline uint64_t call_ask__state_answer(struct slice_u8 log, struct slice_u8 area, struct slice_u8 state)
{
    uint64_t t4;
    bool t6;

    t6 = call_ask__lengths_right(log, area, state);
    if (!t6) {
        return 1u;
    }
    t4 = base_areas__lengths__log_groups((uint64_t)log.len);
    t6 = base_order__whole__whole_in_order(state, t4, (uint64_t)area.len / 64u);
    if (!t6) {
        return 2u;
    }
    return 0u;
}

/* Questions 1, 2 and 4, which a call that names a writer puts first: 0, or the number of the refusal. */
static inline uint64_t call_writer__writer_answer(struct slice_u8 log, struct slice_u8 area, struct slice_u8 state,
        uint64_t writer)
{
    uint64_t t5;

    t5 = call_ask__state_answer(log, area, state);
    if (t5 != 0u) {
        return t5;
    }
    if (8u <= writer) {
        return 4u;
    }
    return 0u;
}

/* The count that is kept as `less`. */
static inline uint64_t base_state__writers__one_more(uint64_t less)
{
    if (less == UINT64_C(0xffffffffffffffff)) {
        return 0u;
    }
    return less + 1u;
}

/* Reads the four numbers of writer `w`. */
static inline struct model__Writer base_state__writers__writer(struct slice_u8 s, uint64_t w)
{
    uint64_t t3, t4, t5, t6, t7;

    t3 = 128u + (24u * w);
    t4 = (uint64_t)s.ptr[(size_t)(104u + w)];
    t5 = load_8(s.ptr + (size_t)t3);
    t6 = load_8(s.ptr + (size_t)(t3 + 8u));
    t7 = base_state__writers__one_more(load_8(s.ptr + (size_t)(t3 + 16u)));
    return (struct model__Writer){.mode = t4, .home = t5, .first = t6, .count = t7};
}

/* Whether a writer may abort: 0, or the number of the refusal. */
static inline uint64_t call_writer__abort_answer(struct slice_u8 log, struct slice_u8 area, struct slice_u8 state,
        uint64_t writer)
{
    uint64_t t5;
    struct model__Writer t7;

    t5 = call_writer__writer_answer(log, area, state, writer);
    if (t5 != 0u) {
        return t5;
    }
    t7 = base_state__writers__writer(state, writer);
    if (!(1u <= t7.mode)) {
        return 7u;
    }
    return 0u;
}

/* A count as it is kept: less one, modulo 2^64. */
static inline uint64_t base_state__writers__less_one(uint64_t count)
{
    if (count == 0u) {
        return UINT64_C(0xffffffffffffffff);
    }
    return count - 1u;
}

/* Stores `r` as the four numbers of writer `w`, and leaves the rest of the strip as it was. */
static inline void base_state__writers__set_writer(struct slice_mut_u8 s, uint64_t w, struct model__Writer r)
{
    uint64_t t4, t15;

    t4 = 128u + (24u * w);
    s.ptr[(size_t)(104u + w)] = (uint8_t)(r.mode % 256u);
    store_8(s.ptr + (size_t)t4, r.home);
    store_8(s.ptr + (size_t)(t4 + 8u), r.first);
    t15 = base_state__writers__less_one(r.count);
    store_8(s.ptr + (size_t)(t4 + 16u), t15);
}

/* Ends the transaction in the record of writer `w`. */
static inline void base_writers__abort(struct slice_mut_u8 s, uint64_t w)
{
    (void)base_state__writers__writer((struct slice_u8){s.ptr, s.len}, w);
    base_state__writers__set_writer(s, w, (struct model__Writer){.mode = 0u, .home = 0u, .first = 0u, .count = 1u});
}

/* Drops a writer's open transaction with the block that it holds, and gives back the places promised to it. */
static inline struct call_ask__Reply call_writer__abort(struct slice_u8 log, struct slice_u8 area, struct slice_mut_u8 state,
        uint64_t writer)
{
    uint64_t t5;

    t5 = call_writer__abort_answer(log, area, (struct slice_u8){state.ptr, state.len}, writer);
    if (t5 != 0u) {
        return (struct call_ask__Reply){.code = t5, .figure = 0u, .size = 0u};
    }
    base_writers__abort(state, writer);
    store_2(state.ptr + (size_t)(72u + (2u * writer)), 0u);
    return (struct call_ask__Reply){.code = 0u, .figure = 0u, .size = 0u};
}

/* Drops a writer's open transaction with the block that it holds, and gives back the places promised to it. [S-7, S-9, S-28] */
static inline struct call_ask__Reply kagutin__kagutin_abort(struct slice_u8 log, struct slice_u8 area, struct slice_mut_u8 state,
        uint64_t writer)
{
    return call_writer__abort(log, area, state, writer);
}

/* Whether a writer may begin: 0, or the number of the refusal. */
static inline uint64_t call_writer__begin_answer(struct slice_u8 log, struct slice_u8 area, struct slice_u8 state,
        uint64_t writer)
{
    uint64_t t5;
    struct model__Writer t8;

    t5 = call_writer__writer_answer(log, area, state, writer);
    if (t5 != 0u) {
        return t5;
    }
    t8 = base_state__writers__writer(state, writer);
    if (1u <= t8.mode) {
        return 6u;
    }
    return 0u;
}

/* Begins a transaction in the record of writer `w`. */
static inline void base_writers__begin(struct slice_mut_u8 s, uint64_t w)
{
    (void)base_state__writers__writer((struct slice_u8){s.ptr, s.len}, w);
    base_state__writers__set_writer(s, w, (struct model__Writer){.mode = 1u, .home = 0u, .first = 0u, .count = 1u});
}

/* Begins a transaction of a writer that has none open. */
static inline struct call_ask__Reply call_writer__begin(struct slice_u8 log, struct slice_u8 area, struct slice_mut_u8 state,
        uint64_t writer)
{
    uint64_t t5;

    t5 = call_writer__begin_answer(log, area, (struct slice_u8){state.ptr, state.len}, writer);
    if (t5 != 0u) {
        return (struct call_ask__Reply){.code = t5, .figure = 0u, .size = 0u};
    }
    base_writers__begin(state, writer);
    return (struct call_ask__Reply){.code = 0u, .figure = 0u, .size = 0u};
}

/* Begins a transaction of a writer that has none open. [S-7, S-9, S-28] */
static inline struct call_ask__Reply kagutin__kagutin_begin(struct slice_u8 log, struct slice_u8 area, struct slice_mut_u8 state,
        uint64_t writer)
{
    return call_writer__begin(log, area, state, writer);
}

/* Begins a round that covers what is fenced now. */
static inline struct call_ask__Reply call_settle__rounds__begin_round(struct slice_u8 log, struct slice_u8 area,
        struct slice_mut_u8 state)
{
    uint64_t t4, t19, t20;
    struct model__State t5;

    t4 = call_ask__state_answer(log, area, (struct slice_u8){state.ptr, state.len});
    if (t4 != 0u) {
        return (struct call_ask__Reply){.code = t4, .figure = 0u, .size = 0u};
    }
    t19 = load_8(state.ptr);
    t20 = load_8(state.ptr + 8u);
    t5 = (struct model__State){.groups = t19, .homes = t20, .start = load_8(state.ptr + 16u), .next = load_8(state.ptr + 24u),
            .filled = load_8(state.ptr + 32u), .settled = load_8(state.ptr + 40u), .fenced = load_8(state.ptr + 48u),
            .durable = load_8(state.ptr + 56u), .last = load_8(state.ptr + 64u), .round = load_8(state.ptr + 88u),
            .cursor = load_8(state.ptr + 96u)};
    if (t5.round != 0u) {
        return (struct call_ask__Reply){.code = 21u, .figure = 0u, .size = 0u};
    }
    store_8(state.ptr + 88u, t5.fenced + 1u);
    store_8(state.ptr + 96u, 0u);
    return (struct call_ask__Reply){.code = 0u, .figure = 0u, .size = 0u};
}

/* Begins a round of settling in small steps, which covers the commits below the fenced position of now. [S-7, S-9, S-40] */
static inline struct call_ask__Reply kagutin__kagutin_begin_round(struct slice_u8 log, struct slice_u8 area,
        struct slice_mut_u8 state)
{
    return call_settle__rounds__begin_round(log, area, state);
}

/* Questions 1 and 2 of a call that is lent the newest positions, eight bytes for each home. */
static inline uint64_t call_ask__newest_answer(struct slice_u8 log, struct slice_u8 area, struct slice_u8 state,
        struct slice_u8 newest)
{
    if ((uint64_t)newest.len != (8u * ((uint64_t)area.len / 64u))) {
        return 1u;
    }
    return call_ask__state_answer(log, area, state);
}

/* How many places are promised to the eight writers together, one after the other. */
static inline uint64_t base_state__promises__promised_each(struct slice_u8 s)
{
    uint64_t t2, t3;

    t2 = 0u;
    t3 = 0u;
    while (t3 < 8u) {
        t2 = t2 + load_2(s.ptr + (size_t)(72u + (2u * t3)));
        t3 = t3 + 1u;
    }
    return t2;
}

/* Whether an entry of writer `w` finds a place: one that is promised to it, or one that is promised to nobody. */
static inline bool base_state__promises__room_for(struct slice_u8 s, struct model__State st, uint64_t w)
{
    bool t4;
    uint64_t t6;

    t4 = base_state__promises__none_promised(s);
    if (t4) {
        return st.next < (st.start + st.groups);
    }
    if (load_2(s.ptr + (size_t)(72u + (2u * w))) != 0u) {
        return true;
    }
    t6 = base_state__promises__promised_each(s);
    return t6 < ((7u * (st.start + st.groups)) - ((7u * st.next) + st.filled));
}

/* Questions 8 and 10 of a call that logs an entry of writer `w`: 0 if the log has room for it, and the batch for the group that
   it may fill. */
static inline uint64_t call_store__entry__log_answer(struct slice_u8 state, uint64_t w, uint64_t batch)
{
    struct model__State t4;
    bool t5;
    uint64_t t8, t9;

    t8 = load_8(state.ptr);
    t9 = load_8(state.ptr + 8u);
    t4 = (struct model__State){.groups = t8, .homes = t9, .start = load_8(state.ptr + 16u), .next = load_8(state.ptr + 24u),
            .filled = load_8(state.ptr + 32u), .settled = load_8(state.ptr + 40u), .fenced = load_8(state.ptr + 48u),
            .durable = load_8(state.ptr + 56u), .last = load_8(state.ptr + 64u), .round = load_8(state.ptr + 88u),
            .cursor = load_8(state.ptr + 96u)};
    t5 = base_state__promises__room_for(state, t4, w);
    if (!t5) {
        return 8u;
    }
    if (t4.filled != 6u) {
        return 0u;
    }
    if (batch < 516u) {
        return 9u;
    }
    return 0u;
}

/* The answer of a commit: 0, or the number of the question that refuses it. */
static inline uint64_t call_commit__commit_answer(struct slice_u8 log, struct slice_u8 area, struct slice_u8 state,
        struct slice_u8 newest, struct slice_u8 batch, uint64_t writer)
{
    uint64_t t7;
    struct model__Writer t8;

    t7 = call_ask__newest_answer(log, area, state, newest);
    if (t7 != 0u) {
        return t7;
    }
    if (8u <= writer) {
        return 4u;
    }
    t8 = base_state__writers__writer(state, writer);
    if (!(1u <= t8.mode)) {
        return 7u;
    }
    if (!(2u <= t8.mode)) {
        return 0u;
    }
    return call_store__entry__log_answer(state, writer, (uint64_t)batch.len);
}

/* Ends the transaction of a writer that holds nothing, and gives back the places promised to it. */
static inline void call_commit__commit_none(struct slice_mut_u8 state, uint64_t w)
{
    base_writers__abort(state, w);
    store_2(state.ptr + (size_t)(72u + (2u * w)), 0u);
}

/* The position of the first entry of a writer's transaction whose next entry goes to `position`. */
static inline uint64_t base_state__writers__first_for(struct model__Writer r, uint64_t position)
{
    uint64_t t4;

    if (3u <= r.mode) {
        t4 = r.first;
    } else {
        t4 = position;
    }
    return t4;
}

/* The distance from `position` back to the last closing entry, 0 if there is none since the start. */
static inline uint64_t call_store__entry__link_from(uint64_t position, struct model__State st)
{
    if (st.last <= (7u * st.start)) {
        return 0u;
    }
    return (position + 1u) - st.last;
}

/* How many entries a writer's transaction has logged. */
static inline uint64_t base_state__writers__count_for(struct model__Writer r)
{
    uint64_t t3;

    if (3u <= r.mode) {
        t3 = r.count;
    } else {
        t3 = 0u;
    }
    return t3;
}

/* The tag of a held block that is logged at `position` and commits its transaction. */
static inline uint64_t call_store__entry__closing_word(struct model__State st, struct model__Writer r, uint64_t position)
{
    uint64_t t4, t5, t6;

    t6 = base_state__writers__first_for(r, position);
    t4 = position - t6;
    t5 = call_store__entry__link_from(position, st);
    t6 = base_state__writers__count_for(r);
    return ((((3u | ((r.home & 4095u) << 2u)) | (t4 << 14u)) | (t5 << 27u)) | ((t6 + 1u) << 40u)) | ((r.home >> 12u) << 53u);
}

/* The same for any group, as the first of a pass: a small machine divides numbers of 64 bits by a library call, and few logs get
   that far. [S-20] */
static inline struct log_scan__slots__RingSlot log_scan__slots__first_slot(uint64_t n, uint64_t groups)
{
    uint32_t t11, t12;

    if (n <= UINT64_C(0xffffffff)) {
        if (groups <= UINT64_C(0xffffffff)) {
            t11 = (uint32_t)n;
            t12 = (uint32_t)groups;
            return (struct log_scan__slots__RingSlot){.slot = (uint64_t)(uint32_t)((uint32_t)t11 % t12),
                    .turn = (uint64_t)(uint32_t)((uint32_t)(uint32_t)((uint32_t)t11 / t12) % 2u)};
        }
    }
    return (struct log_scan__slots__RingSlot){.slot = n % groups, .turn = (n / groups) % 2u};
}

/* Writes the mark of a group at index `at`. */
static inline void base_codec__marks__put_group_mark(struct slice_mut_u8 dst, uint64_t at)
{
    struct array_u8_2 t3;
    struct slice_u8 t10;

    t3 = (struct array_u8_2){{80u, 71u}};
    t10 = (struct slice_u8){t3.at, 2u};
    dst.ptr[(size_t)at] = t10.ptr[0u];
    dst.ptr[(size_t)(at + 1u)] = t10.ptr[1u];
}

/* Writes `n` zeros from index `at` on, and leaves the other bytes as they were. */
static inline void base_codec__blocks__clear(struct slice_mut_u8 dst, uint64_t at, uint64_t n)
{
    uint64_t t4, t5;

    t4 = at;
    t5 = n;
    while (0u < t5) {
        dst.ptr[(size_t)t4] = 0u;
        t4 = t4 + 1u;
        t5 = t5 - 1u;
    }
}

/* Writes seven data blocks of zeros but for the turn bit `bit` from index `at` on. */
static inline void base_areas__turns__put_turn_blocks(struct slice_mut_u8 dst, uint64_t at, uint64_t bit)
{
    uint8_t t4;
    uint64_t t5, t6;

    t4 = (uint8_t)((uint32_t)128u * (uint8_t)bit);
    t5 = at;
    t6 = 7u;
    while (0u < t6) {
        base_codec__blocks__clear(dst, t5, 63u);
        dst.ptr[(size_t)(t5 + 63u)] = t4;
        t5 = t5 + 64u;
        t6 = t6 - 1u;
    }
}

/* Writes the blank group of number `n`, which has the turn `turn`, into a ring slot. */
static inline void base_areas__groups__put_blank(struct slice_mut_u8 log, uint64_t slot, uint64_t n, uint64_t turn)
{
    uint64_t t5, t17;

    t5 = 64u + (512u * slot);
    base_codec__marks__put_group_mark(log, t5);
    t17 = t5 + 2u;
    store_4(log.ptr + (size_t)t17, n);
    store_2(log.ptr + (size_t)(t17 + 4u), n / UINT64_C(0x100000000));
    base_codec__blocks__clear(log, t5 + 8u, 56u);
    base_areas__turns__put_turn_blocks(log, t5 + 64u, turn);
}

/* Writes the bytes of `src` from index `at` on, and leaves the other bytes as they were. */
static inline void base_codec__blocks__copy(struct slice_mut_u8 dst, uint64_t at, struct slice_u8 src)
{
    uint64_t t4, t5, t19;

    t4 = at;
    t5 = 0u;
    UNROLL
    while (16u <= ((uint64_t)src.len - t5)) {
        t19 = load_8(src.ptr + (size_t)(t5 + 8u));
        store_8(dst.ptr + (size_t)t4, load_8(src.ptr + (size_t)t5));
        store_8(dst.ptr + (size_t)(t4 + 8u), t19);
        t4 = t4 + 16u;
        t5 = t5 + 16u;
    }
    while (t5 < (uint64_t)src.len) {
        dst.ptr[(size_t)t4] = src.ptr[(size_t)t5];
        t4 = t4 + 1u;
        t5 = t5 + 1u;
    }
}

/* Writes the block that stands in `src` from index `from` on, with the top bit `bit`, into `dst` from index `at` on. */
static inline void base_codec__turns__copy_with_top_bit(struct slice_mut_u8 dst, uint64_t at, struct slice_u8 src, uint64_t from,
        uint64_t bit)
{
    base_codec__blocks__copy(dst, at, (struct slice_u8){src.ptr + (size_t)from, (size_t)((from + 64u) - from)});
    dst.ptr[(size_t)(at + 63u)] = (uint8_t)((uint32_t)(uint8_t)((uint32_t)src.ptr[(size_t)(from + 63u)] % 128u)
            + (uint8_t)((uint32_t)128u * (uint8_t)bit));
}

/* Writes an entry's tag and its block at index `k` of the group in a ring slot: the block gets the turn bit, and the tag the bit
   that it displaces. [S-14] */
static inline void base_areas__groups__put_entry(struct slice_mut_u8 log, uint64_t slot, uint64_t turn, uint64_t k, uint64_t word,
        struct slice_u8 block)
{
    uint64_t t7;

    t7 = 64u + (512u * slot);
    store_8(log.ptr + (size_t)(t7 + (8u + (8u * k))), word | ((uint64_t)(uint8_t)((uint32_t)block.ptr[(size_t)((uint64_t)0u
            + 63u)] >> 7u) << 57u));
    base_codec__turns__copy_with_top_bit(log, t7 + (64u + (64u * k)), block, 0u, turn);
}

/* Writes an entry's tag and block at the next position, whose group has the turn `turn`, and a blank group first where the
   position is a group's first. [S-11] */
static inline void base_areas__groups__enter(struct slice_mut_u8 log, uint64_t slot, uint64_t turn, struct model__State st,
        uint64_t word, struct slice_u8 block)
{
    uint64_t t7;

    t7 = st.filled;
    if (t7 == 0u) {
        base_areas__groups__put_blank(log, slot, st.next, turn);
    }
    base_areas__groups__put_entry(log, slot, turn, t7, word, block);
}

/* Writes the mark of a group write at index `at`. */
static inline void base_codec__marks__put_group_write_mark(struct slice_mut_u8 dst, uint64_t at)
{
    struct array_u8_2 t3;
    struct slice_u8 t10;

    t3 = (struct array_u8_2){{71u, 87u}};
    t10 = (struct slice_u8){t3.at, 2u};
    dst.ptr[(size_t)at] = t10.ptr[0u];
    dst.ptr[(size_t)(at + 1u)] = t10.ptr[1u];
}

/* Appends the write of the group that the log holds in a ring slot. [S-5] */
static inline uint64_t base_batch__records__group_write(struct slice_mut_u8 batch, uint64_t at, uint64_t slot,
        struct slice_u8 log)
{
    uint64_t t5;

    base_codec__marks__put_group_write_mark(batch, at);
    store_2(batch.ptr + (size_t)(at + 2u), slot);
    t5 = 64u + (512u * slot);
    base_codec__blocks__copy(batch, at + 4u, (struct slice_u8){log.ptr + (size_t)t5, (size_t)((t5 + 512u) - t5)});
    return at + 516u;
}

/* Logs the held block of writer `w` with the tag `word` at the next position; the seventh place of a group hands it on. */
static inline uint64_t call_store__entry__log_entry(struct slice_mut_u8 log, struct slice_mut_u8 state, struct slice_mut_u8 batch,
        uint64_t word, uint64_t w)
{
    struct model__State t6;
    struct log_scan__slots__RingSlot t7;
    uint64_t t8, t9, t12, t35, t36;

    t35 = load_8(state.ptr);
    t36 = load_8(state.ptr + 8u);
    t6 = (struct model__State){.groups = t35, .homes = t36, .start = load_8(state.ptr + 16u), .next = load_8(state.ptr + 24u),
            .filled = load_8(state.ptr + 32u), .settled = load_8(state.ptr + 40u), .fenced = load_8(state.ptr + 48u),
            .durable = load_8(state.ptr + 56u), .last = load_8(state.ptr + 64u), .round = load_8(state.ptr + 88u),
            .cursor = load_8(state.ptr + 96u)};
    t7 = log_scan__slots__first_slot(t6.next, t6.groups);
    t8 = t7.slot;
    t9 = 320u + (64u * w);
    base_areas__groups__enter(log, t8, t7.turn, t6, word, (struct slice_u8){state.ptr + (size_t)t9, (size_t)((t9 + 64u) - t9)});
    if (t6.filled != 6u) {
        store_8(state.ptr + 32u, t6.filled + 1u);
        return 0u;
    }
    store_8(state.ptr + 24u, t6.next + 1u);
    store_8(state.ptr + 32u, 0u);
    t12 = base_batch__records__group_write(batch, 0u, t8, (struct slice_u8){log.ptr, log.len});
    return t12;
}

/* Logs the held block as the closing entry and ends the transaction. */
static inline uint64_t call_commit__close_held(struct slice_mut_u8 log, struct slice_mut_u8 state, struct slice_mut_u8 batch,
        struct model__State st, struct model__Writer r, uint64_t w)
{
    uint64_t t7, t8, t9;

    t7 = (7u * st.next) + st.filled;
    t8 = call_store__entry__closing_word(st, r, t7);
    t9 = call_store__entry__log_entry(log, state, batch, t8, w);
    store_8(state.ptr + 64u, t7 + 1u);
    base_writers__abort(state, w);
    return t9;
}

/* Whether the mark of a group and the number `n` stand in the eight bytes from index `at` on. All eight are compared at once.
   [S-10] */
static inline bool base_codec__marks__has_group_head(struct slice_u8 s, uint64_t at, uint64_t n)
{
    struct array_u8_2 t5;
    struct slice_u8 t13;

    t5 = (struct array_u8_2){{80u, 71u}};
    t13 = (struct slice_u8){t5.at, 2u};
    return load_8(s.ptr + (size_t)at) == (((n % UINT64_C(0x1000000000000)) * UINT64_C(0x10000)) + load_2(t13.ptr));
}

/* Whether the 512 bytes of a ring slot are a valid group with number `n`, in a log of `groups` groups from number `start` on. */
static inline bool log_scan__groups__group_valid(struct slice_u8 group, uint64_t groups, uint64_t start, uint64_t n)
{
    bool t5;

    t5 = base_codec__marks__has_group_head(group, 0u, n);
    if (!t5) {
        return false;
    }
    if (n < start) {
        return false;
    }
    return n < (start + groups);
}

/* The word of tag `k` of a group if its data block has the turn of the group, else that of no entry. */
static inline uint64_t log_scan__groups__word_there(struct slice_u8 group, uint64_t turn, uint64_t k)
{
    if ((uint64_t)(uint8_t)((uint32_t)group.ptr[(size_t)((64u + (64u * k)) + 63u)] >> 7u) != turn) {
        return 0u;
    }
    return load_8(group.ptr + (size_t)(8u + (8u * k)));
}

/* What a word says at a position of a log that starts at position `base` and has `homes` homes. [S-13] */
static inline struct model__Tag base_codec__tags__read_tag(uint64_t word, uint64_t position, uint64_t base, uint64_t homes)
{
    uint64_t t5, t6, t7, t8;

    if ((word & 1u) == 0u) {
        return (struct model__Tag){.tag = 0u};
    }
    if ((word >> 58u) != 0u) {
        return (struct model__Tag){.tag = 0u};
    }
    t5 = ((word >> 2u) & 4095u) | (((word >> 53u) & 15u) << 12u);
    if (homes <= t5) {
        return (struct model__Tag){.tag = 0u};
    }
    t6 = (word >> 14u) & 8191u;
    if (position < t6) {
        return (struct model__Tag){.tag = 0u};
    }
    t7 = position - t6;
    if (t7 < base) {
        return (struct model__Tag){.tag = 0u};
    }
    if (((word >> 1u) & 1u) == 0u) {
        if (((word >> 27u) & UINT64_C(0x3ffffff)) == 0u) {
            return (struct model__Tag){.tag = 1u, .u64_0 = t5, .u64_1 = t7};
        }
        return (struct model__Tag){.tag = 0u};
    }
    t8 = (word >> 40u) & 8191u;
    if (t8 == 0u) {
        return (struct model__Tag){.tag = 0u};
    }
    return (struct model__Tag){.tag = 2u, .u64_0 = t5, .u64_1 = t7, .u64_2 = (word >> 27u) & 8191u, .u64_3 = t8};
}

/* Keeps a position if `word`, that of its tag, is an entry of the transaction with first position `first`, whatever kind of
   entry. Its distance back is compared before all else. */
static inline void log_newest__words__keep_word(struct slice_mut_u8 newest, uint64_t word, uint64_t position, uint64_t base,
        uint64_t homes, uint64_t first)
{
    struct model__Tag t12;

    if (((word >> 14u) & 8191u) != (position - first)) {
        return;
    }
    t12 = base_codec__tags__read_tag(word, position, base, homes);
    if (t12.tag == 0u) {
    } else if (t12.tag == 1u) {
        store_8(newest.ptr + (size_t)(8u * t12.u64_0), position);
    } else {
        store_8(newest.ptr + (size_t)(8u * t12.u64_0), position);
    }
}

/* The same for tag `k` alone, the only one of its transaction. */
static inline void log_newest__groups__keep_alone(struct slice_u8 group, uint64_t groups, uint64_t homes, uint64_t start,
        uint64_t n, uint64_t turn, uint64_t k, struct slice_mut_u8 newest)
{
    uint64_t t9, t10;
    bool t11;

    t11 = log_scan__groups__group_valid(group, groups, start, n);
    if (!t11) {
        return;
    }
    t9 = log_scan__groups__word_there(group, turn, k);
    t10 = (7u * n) + k;
    log_newest__words__keep_word(newest, t9, t10, 7u * start, homes, t10);
}

/* The same for a transaction of its closing entry alone, at index `k` of the group with number `number`. */
static inline void log_newest__commits__keep_one(struct slice_u8 log, uint64_t groups, uint64_t homes, uint64_t start,
        uint64_t number, uint64_t k, struct slice_mut_u8 newest)
{
    struct log_scan__slots__RingSlot t8;
    uint64_t t9;

    t8 = log_scan__slots__first_slot(number, groups);
    t9 = 64u + (512u * t8.slot);
    log_newest__groups__keep_alone((struct slice_u8){log.ptr + (size_t)t9, (size_t)((t9 + 512u) - t9)}, groups, homes, start,
            number, t8.turn, k, newest);
}

/* The same for tag `k` of a group, where it is the transaction's entry that does not close it, which is `plain` but for its home,
   or has another distance back; returns whether it is one of these. Only an entry of the transaction has its block's turn bit
   looked at. */
static inline bool log_newest__words__keep_plain(struct slice_u8 group, uint64_t turn, uint64_t k, uint64_t plain,
        uint64_t position, uint64_t homes, struct slice_mut_u8 newest)
{
    uint64_t t8, t9, t136;

    t8 = load_8(group.ptr + (size_t)(8u + (8u * k)));
    if (!(((t8 ^ plain) & UINT64_C(0xfc1fffffffffc003)) == 0u)) {
        return ((t8 ^ plain) & UINT64_C(0x7ffc000)) != 0u;
    }
    if (128u <= (uint8_t)((uint32_t)group.ptr[(size_t)((64u + (64u * k)) + 63u)] ^ (uint8_t)((uint32_t)128u * (uint8_t)turn))) {
        return true;
    }
    t136 = t8 ^ plain;
    t9 = ((t136 >> 2u) + (t136 >> 41u)) % UINT64_C(0x10000);
    if (homes <= t9) {
        return false;
    }
    store_8(newest.ptr + (size_t)(8u * t9), position);
    return true;
}

/* The same for every tag. */
static inline void log_newest__words__keep_entry(struct slice_u8 group, uint64_t turn, uint64_t k, uint64_t position,
        uint64_t base, uint64_t homes, uint64_t first, struct slice_mut_u8 newest)
{
    uint64_t t10;
    bool t12;

    t12 = log_newest__words__keep_plain(group, turn, k, ((1u | (((uint64_t)0u & 4095u) << 2u)) | ((position - first) << 14u))
            | (((uint64_t)0u >> 12u) << 53u), position, homes, newest);
    if (t12) {
        return;
    }
    t10 = log_scan__groups__word_there(group, turn, k);
    log_newest__words__keep_word(newest, t10, position, base, homes, first);
}

/* Keeps the transaction's entries from tag `done` of a group to below tag `m`, where those before are taken. The group says
   nothing where it is not the valid group with number `n` and turn `turn`. */
static inline void log_newest__groups__keep_between(struct slice_u8 group, uint64_t groups, uint64_t homes, uint64_t start,
        uint64_t n, uint64_t turn, uint64_t done, uint64_t m, uint64_t first, struct slice_mut_u8 newest)
{
    uint64_t t11, t12;
    bool t13;

    t13 = log_scan__groups__group_valid(group, groups, start, n);
    if (!t13) {
        return;
    }
    t11 = 7u * start;
    t12 = done;
    while (t12 < m) {
        log_newest__words__keep_entry(group, turn, t12, (7u * n) + t12, t11, homes, first, newest);
        t12 = t12 + 1u;
    }
}

/* Keeps the transaction's entries of the pass's group that are left below its tag `m`. */
static inline void log_newest__commits__keep_rest(struct slice_u8 log, uint64_t groups, uint64_t homes, uint64_t start,
        uint64_t first, struct log_newest__commits__Pass pass, uint64_t m, struct slice_mut_u8 newest)
{
    struct log_scan__slots__RingSlot t9;
    uint64_t t10;

    t9 = pass.at;
    t10 = 64u + (512u * t9.slot);
    log_newest__groups__keep_between((struct slice_u8){log.ptr + (size_t)t10, (size_t)((t10 + 512u) - t10)}, groups, homes, start,
            pass.number, t9.turn, pass.done, m, first, newest);
}

/* Those of the group after: the turn changes where the slots begin again. [S-20] */
static inline struct log_scan__slots__RingSlot log_scan__slots__next_slot(struct log_scan__slots__RingSlot at, uint64_t groups)
{
    uint64_t t3;

    t3 = at.slot + 1u;
    if (t3 == groups) {
        return (struct log_scan__slots__RingSlot){.slot = 0u, .turn = 1u - at.turn};
    }
    return (struct log_scan__slots__RingSlot){.slot = t3, .turn = at.turn};
}

/* How many of the homes are near. */
static inline uint64_t log_newest__near__near_homes(uint64_t homes)
{
    uint64_t t3;

    if (homes < 4096u) {
        t3 = homes;
    } else {
        t3 = 4096u;
    }
    return t3;
}

/* The same, for a home below `near` by one comparison; where it is not, `keep_plain` sees to it. */
static inline bool log_newest__words__keep_near(struct slice_u8 group, uint64_t turn, uint64_t k, uint64_t plain,
        uint64_t position, uint64_t near, uint64_t homes, struct slice_mut_u8 newest)
{
    uint64_t t9, t10, t128;

    t9 = load_8(group.ptr + (size_t)(8u + (8u * k)));
    if (((t9 ^ plain) & UINT64_C(0x7ffc000)) != 0u) {
        return true;
    }
    t128 = (t9 ^ plain) & UINT64_C(0xfdffffffffffffff);
    t10 = (t128 >> 2u) + (t128 << 62u);
    if (near <= t10) {
        return log_newest__words__keep_plain(group, turn, k, plain, position, homes, newest);
    }
    if (128u <= (uint8_t)((uint32_t)group.ptr[(size_t)((64u + (64u * k)) + 63u)] ^ (uint8_t)((uint32_t)128u * (uint8_t)turn))) {
        return true;
    }
    store_8(newest.ptr + (size_t)(8u * t10), position);
    return true;
}

/* Keeps the transaction's entry at tag `k` of a valid group, if it is plain, where those before are taken; returns whether it has
   taken the tag. `plain` is the plain word of the group's first tag. */
static inline bool log_newest__groups__keep_next(struct slice_u8 group, uint64_t homes, uint64_t n, uint64_t turn, uint64_t first,
        uint64_t k, uint64_t plain, uint64_t near, struct slice_mut_u8 newest)
{
    (void)first;

    return log_newest__words__keep_near(group, turn, k, plain + (16384u * k), (7u * n) + k, near, homes, newest);
}

/* Keeps the transaction's entries of a valid group one after the other, as long as they are plain; returns how many tags it has
   taken. */
static inline uint64_t log_newest__groups__keep_seven(struct slice_u8 group, uint64_t homes, uint64_t n, uint64_t turn,
        uint64_t first, struct slice_mut_u8 newest)
{
    uint64_t t7, t8;
    bool t11;

    t7 = ((1u | (((uint64_t)0u & 4095u) << 2u)) | (((7u * n) - first) << 14u)) | (((uint64_t)0u >> 12u) << 53u);
    t8 = log_newest__near__near_homes(homes);
    t11 = log_newest__groups__keep_next(group, homes, n, turn, first, 0u, t7, t8, newest);
    if (!t11) {
        return 0u;
    }
    t11 = log_newest__groups__keep_next(group, homes, n, turn, first, 1u, t7, t8, newest);
    if (!t11) {
        return 1u;
    }
    t11 = log_newest__groups__keep_next(group, homes, n, turn, first, 2u, t7, t8, newest);
    if (!t11) {
        return 2u;
    }
    t11 = log_newest__groups__keep_next(group, homes, n, turn, first, 3u, t7, t8, newest);
    if (!t11) {
        return 3u;
    }
    t11 = log_newest__groups__keep_next(group, homes, n, turn, first, 4u, t7, t8, newest);
    if (!t11) {
        return 4u;
    }
    t11 = log_newest__groups__keep_next(group, homes, n, turn, first, 5u, t7, t8, newest);
    if (!t11) {
        return 5u;
    }
    t11 = log_newest__groups__keep_next(group, homes, n, turn, first, 6u, t7, t8, newest);
    if (!t11) {
        return 6u;
    }
    return 7u;
}

/* The same for a group of the log's range, none where it is not the valid group with number `n`: its head is asked once. */
static inline uint64_t log_newest__groups__keep_whole(struct slice_u8 group, uint64_t groups, uint64_t homes, uint64_t start,
        uint64_t n, uint64_t turn, uint64_t first, struct slice_mut_u8 newest)
{
    bool t9;
    (void)groups;
    (void)start;

    t9 = base_codec__marks__has_group_head(group, 0u, n);
    if (!t9) {
        return 0u;
    }
    return log_newest__groups__keep_seven(group, homes, n, turn, first, newest);
}

/* Keeps the transaction's entries of the groups from number `from` on that lie whole below position `end`, as long as their tags
   are plain. */
static inline struct log_newest__commits__Pass log_newest__commits__keep_groups(struct slice_u8 log, uint64_t groups,
        uint64_t homes, uint64_t start, uint64_t first, uint64_t end, uint64_t from, struct log_scan__slots__RingSlot ring,
        struct slice_mut_u8 newest)
{
    uint64_t t10, t12, t14;
    struct log_scan__slots__RingSlot t11;

    t10 = from;
    t11 = ring;
    while (((7u * t10) + 7u) <= end) {
        t12 = 64u + (512u * t11.slot);
        t14 = log_newest__groups__keep_whole((struct slice_u8){log.ptr + (size_t)t12, (size_t)((t12 + 512u) - t12)}, groups,
                homes, start, t10, t11.turn, first, newest);
        if (t14 != 7u) {
            return (struct log_newest__commits__Pass){.number = t10, .at = t11, .done = t14};
        }
        t11 = log_scan__slots__next_slot(t11, groups);
        t10 = t10 + 1u;
    }
    return (struct log_newest__commits__Pass){.number = t10, .at = t11, .done = 0u};
}

/* Keeps the position of each entry of the transaction from position `first` to the closing one, so that the later position wins.
   */
static inline void log_newest__commits__keep_entries(struct slice_u8 log, uint64_t groups, uint64_t homes, uint64_t start,
        uint64_t first, uint64_t closing, struct slice_mut_u8 newest)
{
    uint64_t t8, t10, t13;
    struct log_scan__slots__RingSlot t9, t12;
    struct log_newest__commits__Pass t11;

    t8 = first / 7u;
    t9 = log_scan__slots__first_slot(t8, groups);
    t10 = closing + 1u;
    t11 = (struct log_newest__commits__Pass){.number = t8, .at = t9, .done = first - (7u * t8)};
    while (((7u * t11.number) + 7u) <= t10) {
        log_newest__commits__keep_rest(log, groups, homes, start, first, t11, 7u, newest);
        t12 = log_scan__slots__next_slot(t11.at, groups);
        t11 = log_newest__commits__keep_groups(log, groups, homes, start, first, t10, t11.number + 1u, t12, newest);
    }
    t13 = t10 - (7u * t11.number);
    if (t13 == 0u) {
        return;
    }
    log_newest__commits__keep_rest(log, groups, homes, start, first, t11, t13, newest);
}

/* Keeps the position of each entry of the transaction that was closed at the next position; where nothing was logged before, that
   is one position. */
static inline void call_commit__keep_newest(struct slice_u8 log, struct slice_mut_u8 newest, struct model__State st,
        struct model__Writer r)
{
    uint64_t t5, t6;

    if (!(3u <= r.mode)) {
        log_newest__commits__keep_one(log, st.groups, st.homes, st.start, st.next, st.filled, newest);
        return;
    }
    t5 = (7u * st.next) + st.filled;
    t6 = base_state__writers__first_for(r, t5);
    log_newest__commits__keep_entries(log, st.groups, st.homes, st.start, t6, t5, newest);
}

/* The same for all four. */
static inline bool call_rights__keep__same_listed(struct slice_u8 state, struct slice_u8 newest)
{
    if (!(load_8(state.ptr + (size_t)(896u + ((uint64_t)8u * 0u))) == load_8(newest.ptr + (size_t)(64u + ((uint64_t)8u * 0u))))) {
        return false;
    }
    if (!(load_8(state.ptr + (size_t)(896u + ((uint64_t)8u * 1u))) == load_8(newest.ptr + (size_t)(64u + ((uint64_t)8u * 1u))))) {
        return false;
    }
    if (!(load_8(state.ptr + (size_t)(896u + ((uint64_t)8u * 2u))) == load_8(newest.ptr + (size_t)(64u + ((uint64_t)8u * 2u))))) {
        return false;
    }
    return load_8(state.ptr + (size_t)(896u + ((uint64_t)8u * 3u))) == load_8(newest.ptr + (size_t)(64u + ((uint64_t)8u * 3u)));
}

/* Stores the four positions, and leaves the rest of the strip as it was. */
static inline void base_state__listed__set_listed(struct slice_mut_u8 s, struct slice_u8 positions)
{
    base_codec__blocks__copy(s, 896u, positions);
}

/* Carries the four positions over from the newest positions of `homes` homes, where the list has its homes. */
static inline void base_state__listed__carry_listed(struct slice_mut_u8 s, struct slice_u8 newest, uint64_t homes)
{
    if (homes < 12u) {
        return;
    }
    base_state__listed__set_listed(s, (struct slice_u8){newest.ptr + 64u, (size_t)((uint64_t)96u - 64u)});
}

/* The ring place of the position that lies `after` positions behind the log's start. */
static inline struct log_shown__ring__RingPlace log_shown__ring__ring_place(struct model__State st, uint64_t after)
{
    uint64_t t3, t4;
    struct log_scan__slots__RingSlot t5;

    t3 = (after * 9363u) >> 16u;
    t4 = st.start + t3;
    t5 = log_scan__slots__first_slot(t4, st.groups);
    return (struct log_shown__ring__RingPlace){.number = t4, .slot = t5.slot, .turn = t5.turn, .k = after - (7u * t3)};
}

/* Whether a word says `after` positions behind the log's start that an entry for a home is there. Its lowest bits and its
   highest, next to each other, are those of the home, with 2 more where it closes a transaction and 2^18 more where it displaced
   a bit. */
static inline bool log_shown__tags__fields_for(uint64_t word, uint64_t home, uint64_t after)
{
    uint64_t t4, t5;

    if (after < ((word >> 14u) % 8192u)) {
        return false;
    }
    t4 = (word % 16384u) + (16384u * (word >> 53u));
    t5 = (4u * home) + 1u;
    if (t4 == (t5 + 2u)) {
        return 0u < ((word >> 40u) % 8192u);
    }
    if (t4 == (t5 + UINT64_C(0x40002))) {
        return 0u < ((word >> 40u) % 8192u);
    }
    if (t4 == t5) {
        return ((word >> 27u) % UINT64_C(0x4000000)) == 0u;
    }
    if (t4 != (t5 + UINT64_C(0x40000))) {
        return false;
    }
    return ((word >> 27u) % UINT64_C(0x4000000)) == 0u;
}

/* The same. The word of an entry that does not close its transaction and displaced no bit has nothing above the distance back:
   that and its low bits are all that is compared. */
static inline bool log_shown__tags__is_entry_for(uint64_t word, uint64_t home, uint64_t after)
{
    if ((word >> 14u) <= after) {
        return (word % 16384u) == ((4u * home) + 1u);
    }
    return log_shown__tags__fields_for(word, home, after);
}

/* Whether an entry for a home stands `after` positions behind the log's start, which is at a place of the ring: its group's
   number is in range. */
static inline bool log_shown__entry_there(struct slice_u8 log, struct model__State st, uint64_t home, uint64_t after,
        struct log_shown__ring__RingPlace at)
{
    uint64_t t6, t8;
    struct slice_u8 t7;
    bool t13;
    (void)st;

    t6 = 64u + (512u * at.slot);
    t7 = (struct slice_u8){log.ptr + (size_t)t6, (size_t)((t6 + 512u) - t6)};
    t13 = base_codec__marks__has_group_head(t7, 0u, at.number);
    if (!t13) {
        return false;
    }
    t8 = log_scan__groups__word_there(t7, at.turn, at.k);
    return log_shown__tags__is_entry_for(t8, home, after);
}

/* Where the block of the entry for a home lies in the log, if one is at the position kept for it; else 0. */
static inline uint64_t log_shown__place_by(struct slice_u8 log, struct model__State st, uint64_t home, uint64_t position)
{
    uint64_t t5, t6;
    struct log_shown__ring__RingPlace t7;
    bool t8;

    t5 = 7u * st.start;
    if (position < t5) {
        return 0u;
    }
    if (((7u * st.next) + st.filled) <= position) {
        return 0u;
    }
    t6 = position - t5;
    t7 = log_shown__ring__ring_place(st, t6);
    t8 = log_shown__entry_there(log, st, home, t6, t7);
    if (!t8) {
        return 0u;
    }
    return (64u + (512u * t7.slot)) + (64u + (64u * t7.k));
}

/* The same by the strip. Called by one name from everywhere, so that of its numbers only those that are compared are read. */
static inline uint64_t log_shown__place(struct slice_u8 log, struct slice_u8 state, uint64_t home, uint64_t position)
{
    uint64_t t7, t8;

    t7 = load_8(state.ptr);
    t8 = load_8(state.ptr + 8u);
    return log_shown__place_by(log, (struct model__State){.groups = t7, .homes = t8, .start = load_8(state.ptr + 16u),
            .next = load_8(state.ptr + 24u), .filled = load_8(state.ptr + 32u), .settled = load_8(state.ptr + 40u),
            .fenced = load_8(state.ptr + 48u), .durable = load_8(state.ptr + 56u), .last = load_8(state.ptr + 64u),
            .round = load_8(state.ptr + 88u), .cursor = load_8(state.ptr + 96u)}, home, position);
}

/* Where the block of the list's home 8 + `i` lies in the log, 0 where the data copy has it. */
static inline uint64_t call_rights__list__place(struct slice_u8 log, struct slice_u8 state, struct slice_u8 kept, uint64_t from,
        uint64_t i)
{
    return log_shown__place(log, state, 8u + i, load_8(kept.ptr + (size_t)(from + (8u * i))));
}

/* Whether the block that the entry with its block at index `place` of the log gives is all zeros: the turn bit is shifted out of
   its last word, and the bit that it displaced counts instead. */
static inline bool call_rights__zeros__zero_entry(struct slice_u8 log, uint64_t place)
{
    uint64_t t3, t431, t954;

    t3 = load_8(log.ptr + (size_t)place) | (load_8(log.ptr + (size_t)(place + 8u)) | (load_8(log.ptr + (size_t)(place + 16u))
            | load_8(log.ptr + (size_t)(place + 24u))));
    t431 = place + 24u;
    if ((t3 | (load_8(log.ptr + (size_t)t431) | (load_8(log.ptr + (size_t)(t431 + 8u)) | (load_8(log.ptr + (size_t)(t431 + 16u))
            | load_8(log.ptr + (size_t)(t431 + 24u)))))) != 0u) {
        return false;
    }
    t954 = place - 64u;
    return ((load_8(log.ptr + (size_t)(place + 56u)) << 1u) | ((load_8(log.ptr + (size_t)((64u + ((t954 / 512u) * 512u))
            + ((t954 % 512u) / 8u))) >> 57u) & 1u)) == 0u;
}

/* Whether block `i` of the list, which has the place `found`, is all zeros. */
static inline bool call_rights__list__is_zero(struct slice_u8 log, struct slice_u8 area, uint64_t found, uint64_t i)
{
    uint64_t t9, t10, t434;

    if (found == 0u) {
        t9 = 64u * (8u + i);
        t10 = load_8(area.ptr + (size_t)t9) | (load_8(area.ptr + (size_t)(t9 + 8u)) | (load_8(area.ptr + (size_t)(t9 + 16u))
                | load_8(area.ptr + (size_t)(t9 + 24u))));
        t434 = t9 + 32u;
        return (t10 | (load_8(area.ptr + (size_t)t434) | (load_8(area.ptr + (size_t)(t434 + 8u)) | (load_8(area.ptr
                + (size_t)(t434 + 16u)) | load_8(area.ptr + (size_t)(t434 + 24u)))))) == 0u;
    }
    return call_rights__zeros__zero_entry(log, found);
}

/* The same for block `i`, where block `own` is known to be all zeros. */
static inline bool call_rights__list__other_zero(struct slice_u8 log, struct slice_u8 area, struct slice_u8 state,
        struct slice_u8 kept, uint64_t from, uint64_t own, uint64_t i)
{
    uint64_t t8;

    if (i == own) {
        return true;
    }
    t8 = call_rights__list__place(log, state, kept, from, i);
    return call_rights__list__is_zero(log, area, t8, i);
}

/* Whether the whole list is all zeros, where block `own` is. */
static inline bool call_rights__list__no_list(struct slice_u8 log, struct slice_u8 area, struct slice_u8 state,
        struct slice_u8 kept, uint64_t from, uint64_t own)
{
    uint64_t t7;
    bool t8;

    t7 = 0u;
    while (t7 < 4u) {
        t8 = call_rights__list__other_zero(log, area, state, kept, from, own, t7);
        if (!t8) {
            return false;
        }
        t7 = t7 + 1u;
    }
    return true;
}

/* Whether the whole list is all zeros. */
static inline bool call_rights__list__all_zeros(struct slice_u8 log, struct slice_u8 area, struct slice_u8 state,
        struct slice_u8 kept, uint64_t from)
{
    uint64_t t6;
    bool t7;

    t6 = call_rights__list__place(log, state, kept, from, 0u);
    t7 = call_rights__list__is_zero(log, area, t6, 0u);
    if (!t7) {
        return false;
    }
    return call_rights__list__no_list(log, area, state, kept, from, 0u);
}

/* Sets the sign of the list that the newest positions show. */
static inline void call_rights__keep__sign_list(struct slice_u8 log, struct slice_u8 area, struct slice_mut_u8 state,
        struct slice_u8 newest)
{
    bool t5;

    t5 = call_rights__list__all_zeros(log, area, (struct slice_u8){state.ptr, state.len}, newest, 64u);
    if (t5) {
        store_8(state.ptr + 928u, 1u);
        return;
    }
    store_8(state.ptr + 928u, 2u);
}

/* Keeps the list's part of the strip after a commit that has left log, strip and newest positions. */
static inline void call_rights__keep__keep_list(struct slice_u8 log, struct slice_u8 area, struct slice_mut_u8 state,
        struct slice_u8 newest)
{
    uint64_t t5;
    bool t6;

    t5 = (uint64_t)area.len / 64u;
    if (t5 < 12u) {
        return;
    }
    t6 = call_rights__keep__same_listed((struct slice_u8){state.ptr, state.len}, newest);
    base_state__listed__carry_listed(state, newest, t5);
    if (t6) {
        return;
    }
    call_rights__keep__sign_list(log, area, state, newest);
}

/* The closing entry, with the places promised to the writer given back, the newest positions kept, and with them the state
   strip's part of the list of rights. */
static inline uint64_t call_commit__commit_held(struct slice_mut_u8 log, struct slice_u8 area, struct slice_mut_u8 state,
        struct slice_mut_u8 newest, struct slice_mut_u8 batch, struct model__State st, struct model__Writer r, uint64_t w)
{
    uint64_t t9;

    t9 = call_commit__close_held(log, state, batch, st, r, w);
    store_2(state.ptr + (size_t)(72u + (2u * w)), 0u);
    call_commit__keep_newest((struct slice_u8){log.ptr, log.len}, newest, st, r);
    call_rights__keep__keep_list((struct slice_u8){log.ptr, log.len}, area, state, (struct slice_u8){newest.ptr, newest.len});
    return t9;
}

/* The same by the numbers and the record that stand in the strip. */
static inline uint64_t call_commit__commit_next(struct slice_mut_u8 log, struct slice_u8 area, struct slice_mut_u8 state,
        struct slice_mut_u8 newest, struct slice_mut_u8 batch, uint64_t w)
{
    struct model__State t7;
    struct model__Writer t8;
    uint64_t t22, t23;

    t22 = load_8(state.ptr);
    t23 = load_8(state.ptr + 8u);
    t7 = (struct model__State){.groups = t22, .homes = t23, .start = load_8(state.ptr + 16u), .next = load_8(state.ptr + 24u),
            .filled = load_8(state.ptr + 32u), .settled = load_8(state.ptr + 40u), .fenced = load_8(state.ptr + 48u),
            .durable = load_8(state.ptr + 56u), .last = load_8(state.ptr + 64u), .round = load_8(state.ptr + 88u),
            .cursor = load_8(state.ptr + 96u)};
    t8 = base_state__writers__writer((struct slice_u8){state.ptr, state.len}, w);
    return call_commit__commit_held(log, area, state, newest, batch, t7, t8, w);
}

/* Commits a writer's open transaction: its held block is logged as the closing entry, whose position + 1 is the ticket, and for
   each home that it wrote the last entry's position is kept. */
static inline struct call_ask__Reply call_commit__commit(struct slice_mut_u8 log, struct slice_u8 area, struct slice_mut_u8 state,
        struct slice_mut_u8 newest, struct slice_mut_u8 batch, uint64_t writer)
{
    uint64_t t7, t8, t12, t43, t44;
    struct model__Writer t9;
    struct model__State t10;

    t7 = call_commit__commit_answer((struct slice_u8){log.ptr, log.len}, area, (struct slice_u8){state.ptr, state.len},
            (struct slice_u8){newest.ptr, newest.len}, (struct slice_u8){batch.ptr, batch.len}, writer);
    if (t7 != 0u) {
        return (struct call_ask__Reply){.code = t7, .figure = 0u, .size = 0u};
    }
    t8 = writer;
    t9 = base_state__writers__writer((struct slice_u8){state.ptr, state.len}, t8);
    if (!(2u <= t9.mode)) {
        call_commit__commit_none(state, t8);
        return (struct call_ask__Reply){.code = 0u, .figure = 0u, .size = 0u};
    }
    t43 = load_8(state.ptr);
    t44 = load_8(state.ptr + 8u);
    t10 = (struct model__State){.groups = t43, .homes = t44, .start = load_8(state.ptr + 16u), .next = load_8(state.ptr + 24u),
            .filled = load_8(state.ptr + 32u), .settled = load_8(state.ptr + 40u), .fenced = load_8(state.ptr + 48u),
            .durable = load_8(state.ptr + 56u), .last = load_8(state.ptr + 64u), .round = load_8(state.ptr + 88u),
            .cursor = load_8(state.ptr + 96u)};
    t12 = call_commit__commit_next(log, area, state, newest, batch, t8);
    return (struct call_ask__Reply){.code = 0u, .figure = ((7u * t10.next) + t10.filled) + 1u, .size = t12};
}

/* Ends a writer's transaction: logs the held block as its closing entry, and returns the ticket. [S-7, S-9, S-31] */
static inline struct call_ask__Reply kagutin__kagutin_commit(struct slice_mut_u8 log, struct slice_u8 area,
        struct slice_mut_u8 state, struct slice_mut_u8 newest, struct slice_mut_u8 batch, uint64_t writer)
{
    return call_commit__commit(log, area, state, newest, batch, writer);
}

/* Makes the fenced position the durable mark, and returns it: all fences so far have passed. */
static inline struct call_ask__Reply call_writer__confirm(struct slice_u8 log, struct slice_u8 area, struct slice_mut_u8 state)
{
    uint64_t t4, t5, t17, t18;
    struct model__State t9;

    t4 = call_ask__state_answer(log, area, (struct slice_u8){state.ptr, state.len});
    if (t4 != 0u) {
        return (struct call_ask__Reply){.code = t4, .figure = 0u, .size = 0u};
    }
    t17 = load_8(state.ptr);
    t18 = load_8(state.ptr + 8u);
    t9 = (struct model__State){.groups = t17, .homes = t18, .start = load_8(state.ptr + 16u), .next = load_8(state.ptr + 24u),
            .filled = load_8(state.ptr + 32u), .settled = load_8(state.ptr + 40u), .fenced = load_8(state.ptr + 48u),
            .durable = load_8(state.ptr + 56u), .last = load_8(state.ptr + 64u), .round = load_8(state.ptr + 88u),
            .cursor = load_8(state.ptr + 96u)};
    t5 = t9.fenced;
    store_8(state.ptr + 56u, t5);
    return (struct call_ask__Reply){.code = 0u, .figure = t5, .size = 0u};
}

/* Makes the fenced position the durable mark, and returns it. [S-7, S-9, S-34] */
static inline struct call_ask__Reply kagutin__kagutin_confirm(struct slice_u8 log, struct slice_u8 area,
        struct slice_mut_u8 state)
{
    return call_writer__confirm(log, area, state);
}

/* Whether a strip of home blocks may have `len` bytes: one to seven whole blocks. */
static inline bool call_many_fetch__questions__blocks_right(uint64_t len)
{
    if ((len % 64u) != 0u) {
        return false;
    }
    if (len < 64u) {
        return false;
    }
    return len <= 448u;
}

/* Whether the `n` homes from `home` on are all below `homes`. */
static inline bool call_many_fetch__questions__homes_known(uint64_t homes, uint64_t home, uint64_t n)
{
    if (homes < home) {
        return false;
    }
    return n <= (homes - home);
}

/* Questions 1, 2, 4 and 5, which each call on several homes puts first: 0 if none refuses it, else the number of the refusal. */
static inline uint64_t call_many_fetch__questions__homes_answer(struct slice_u8 log, struct slice_u8 area, struct slice_u8 state,
        struct slice_u8 newest, struct slice_u8 blocks, uint64_t writer, uint64_t home)
{
    uint64_t t8;
    bool t9;

    t9 = call_many_fetch__questions__blocks_right((uint64_t)blocks.len);
    if (!t9) {
        return 1u;
    }
    t8 = call_ask__newest_answer(log, area, state, newest);
    if (t8 != 0u) {
        return t8;
    }
    if (8u <= writer) {
        return 4u;
    }
    t9 = call_many_fetch__questions__homes_known((uint64_t)area.len / 64u, home, (uint64_t)blocks.len / 64u);
    if (!t9) {
        return 5u;
    }
    return 0u;
}

/* Whether a home is one of the list's own. */
static inline bool call_rights__ranges__of_list(uint64_t home)
{
    if (home < 8u) {
        return false;
    }
    return home < 12u;
}

/* Whether a home lies in one of the four ranges from index `at` on. */
static inline bool call_rights__ranges__in_ranges(struct slice_u8 s, uint64_t at, uint64_t home)
{
    uint64_t t223, t438, t653;

    if ((home - load_2(s.ptr + (size_t)at)) < load_2(s.ptr + (size_t)(at + 2u))) {
        return true;
    }
    t223 = at + 4u;
    if ((home - load_2(s.ptr + (size_t)t223)) < load_2(s.ptr + (size_t)(t223 + 2u))) {
        return true;
    }
    t438 = at + 8u;
    if ((home - load_2(s.ptr + (size_t)t438)) < load_2(s.ptr + (size_t)(t438 + 2u))) {
        return true;
    }
    t653 = at + 12u;
    return (home - load_2(s.ptr + (size_t)t653)) < load_2(s.ptr + (size_t)(t653 + 2u));
}

/* Whether a home lies in the last range of the block that the entry with its block at index `place` of the log gives: it ends
   with the turn bit. */
static inline bool call_rights__ranges__in_last(struct slice_u8 log, uint64_t place, uint64_t home)
{
    uint64_t t4, t5, t219;

    t4 = load_2(log.ptr + (size_t)(place + 60u));
    if (home < t4) {
        return false;
    }
    t5 = load_2(log.ptr + (size_t)(place + 62u)) % 32768u;
    if (home < (t4 + t5)) {
        return true;
    }
    t219 = place - 64u;
    return home < (t4 + (t5 + (32768u * ((load_8(log.ptr + (size_t)((64u + ((t219 / 512u) * 512u))
            + ((t219 % 512u) / 8u))) >> 57u) & 1u))));
}

/* Whether a home lies in one of the four ranges from index `o` on of that block: all but a block's last range stand in the log as
   they are. */
static inline bool call_rights__ranges__in_entry(struct slice_u8 log, uint64_t place, uint64_t o, uint64_t home)
{
    uint64_t t14, t229, t444, t659;

    t14 = place + o;
    if ((home - load_2(log.ptr + (size_t)t14)) < load_2(log.ptr + (size_t)(t14 + 2u))) {
        return true;
    }
    t229 = place + (o + 4u);
    if ((home - load_2(log.ptr + (size_t)t229)) < load_2(log.ptr + (size_t)(t229 + 2u))) {
        return true;
    }
    t444 = place + (o + 8u);
    if ((home - load_2(log.ptr + (size_t)t444)) < load_2(log.ptr + (size_t)(t444 + 2u))) {
        return true;
    }
    if (o < 48u) {
        t659 = place + (o + 12u);
        return (home - load_2(log.ptr + (size_t)t659)) < load_2(log.ptr + (size_t)(t659 + 2u));
    }
    return call_rights__ranges__in_last(log, place, home);
}

/* Whether a home lies in one of the four ranges from byte `at` of the list on, whose block has the place `found`. Two ask it, so
   that it stays a function of its own and `open_listed` is short enough to stand in the questions themselves. */
static inline bool call_rights__list__own_ranges(struct slice_u8 log, struct slice_u8 area, uint64_t found, uint64_t at,
        uint64_t home)
{
    if (found == 0u) {
        return call_rights__ranges__in_ranges(area, (64u * (8u + (at / 64u))) + (at % 64u), home);
    }
    return call_rights__ranges__in_entry(log, found, at % 64u, home);
}

/* Whether the ranges from byte `at` of the list on open a home: only the writer's own block is looked up. */
static inline bool call_rights__list__open_listed(struct slice_u8 log, struct slice_u8 area, struct slice_u8 state,
        struct slice_u8 kept, uint64_t from, uint64_t at, uint64_t home)
{
    uint64_t t8;

    t8 = call_rights__list__place(log, state, kept, from, at / 64u);
    return call_rights__list__own_ranges(log, area, t8, at, home);
}

/* Whether no position is kept for any of the list's homes: the whole list lies in the data copy. */
static inline bool call_rights__list__none_kept(struct slice_u8 kept, uint64_t from)
{
    if (load_8(kept.ptr + (size_t)from) != UINT64_C(0xffffffffffffffff)) {
        return false;
    }
    if (load_8(kept.ptr + (size_t)(from + 8u)) != UINT64_C(0xffffffffffffffff)) {
        return false;
    }
    if (load_8(kept.ptr + (size_t)(from + 16u)) != UINT64_C(0xffffffffffffffff)) {
        return false;
    }
    return load_8(kept.ptr + (size_t)(from + 24u)) == UINT64_C(0xffffffffffffffff);
}

/* The same, or there is no list, by its blocks alone. The writer's own block is asked first. */
static inline bool call_rights__list__open_kept(struct slice_u8 log, struct slice_u8 area, struct slice_u8 state,
        struct slice_u8 kept, uint64_t from, uint64_t at, uint64_t home)
{
    uint64_t t8;
    bool t10;

    t8 = call_rights__list__place(log, state, kept, from, at / 64u);
    t10 = call_rights__list__own_ranges(log, area, t8, at, home);
    if (t10) {
        return true;
    }
    return call_rights__list__all_zeros(log, area, state, kept, from);
}

/* Whether all four blocks of the list are zeros in the data copy. */
static inline bool call_rights__list__none_in_copy(struct slice_u8 area)
{
    uint64_t t5, t429, t849, t1273, t1693, t2117, t2537, t2961;

    t5 = load_8(area.ptr + 512u) | (load_8(area.ptr + (size_t)((uint64_t)512u + 8u)) | (load_8(area.ptr + (size_t)((uint64_t)512u
            + 16u)) | load_8(area.ptr + (size_t)((uint64_t)512u + 24u))));
    t429 = (uint64_t)512u + 32u;
    if (!((t5 | (load_8(area.ptr + (size_t)t429) | (load_8(area.ptr + (size_t)(t429 + 8u)) | (load_8(area.ptr + (size_t)(t429
            + 16u)) | load_8(area.ptr + (size_t)(t429 + 24u)))))) == 0u)) {
        return false;
    }
    t849 = load_8(area.ptr + 576u) | (load_8(area.ptr + (size_t)((uint64_t)576u + 8u)) | (load_8(area.ptr
            + (size_t)((uint64_t)576u + 16u)) | load_8(area.ptr + (size_t)((uint64_t)576u + 24u))));
    t1273 = (uint64_t)576u + 32u;
    if (!((t849 | (load_8(area.ptr + (size_t)t1273) | (load_8(area.ptr + (size_t)(t1273 + 8u)) | (load_8(area.ptr + (size_t)(t1273
            + 16u)) | load_8(area.ptr + (size_t)(t1273 + 24u)))))) == 0u)) {
        return false;
    }
    t1693 = load_8(area.ptr + 640u) | (load_8(area.ptr + (size_t)((uint64_t)640u + 8u)) | (load_8(area.ptr
            + (size_t)((uint64_t)640u + 16u)) | load_8(area.ptr + (size_t)((uint64_t)640u + 24u))));
    t2117 = (uint64_t)640u + 32u;
    if (!((t1693 | (load_8(area.ptr + (size_t)t2117) | (load_8(area.ptr + (size_t)(t2117 + 8u)) | (load_8(area.ptr
            + (size_t)(t2117 + 16u)) | load_8(area.ptr + (size_t)(t2117 + 24u)))))) == 0u)) {
        return false;
    }
    t2537 = load_8(area.ptr + 704u) | (load_8(area.ptr + (size_t)((uint64_t)704u + 8u)) | (load_8(area.ptr
            + (size_t)((uint64_t)704u + 16u)) | load_8(area.ptr + (size_t)((uint64_t)704u + 24u))));
    t2961 = (uint64_t)704u + 32u;
    return (t2537 | (load_8(area.ptr + (size_t)t2961) | (load_8(area.ptr + (size_t)(t2961 + 8u)) | (load_8(area.ptr
            + (size_t)(t2961 + 16u)) | load_8(area.ptr + (size_t)(t2961 + 24u)))))) == 0u;
}

/* The same by the list's sign, where that says nothing. The data copy is looked at without the log if no position is kept. */
static inline bool call_rights__list__open_unsigned(struct slice_u8 log, struct slice_u8 area, struct slice_u8 state,
        struct slice_u8 kept, uint64_t from, uint64_t at, uint64_t home)
{
    bool t8, t10;

    t8 = call_rights__list__none_kept(kept, from);
    if (!t8) {
        return call_rights__list__open_kept(log, area, state, kept, from, at, home);
    }
    t10 = call_rights__ranges__in_ranges(area, 512u + at, home);
    if (t10) {
        return true;
    }
    return call_rights__list__none_in_copy(area);
}

/* Whether a writer may read a home. The list is found by the newest positions. */
static inline bool call_rights__may_read(struct slice_u8 log, struct slice_u8 area, struct slice_u8 state, struct slice_u8 newest,
        uint64_t writer, uint64_t home)
{
    uint64_t t7, t8;
    bool t9;

    t9 = call_rights__ranges__of_list(home);
    if (t9) {
        return true;
    }
    if ((uint64_t)area.len < 768u) {
        return true;
    }
    t7 = (32u * writer) + 16u;
    t8 = load_8(state.ptr + 928u);
    if (t8 == 1u) {
        return true;
    }
    if (t8 == 2u) {
        return call_rights__list__open_listed(log, area, state, newest, 64u, t7, home);
    }
    return call_rights__list__open_unsigned(log, area, state, newest, 64u, t7, home);
}

/* Whether a writer may read each of `n` homes from `home` on. */
static inline bool call_many_fetch__allowed__may_read_all(struct slice_u8 log, struct slice_u8 area, struct slice_u8 state,
        struct slice_u8 newest, uint64_t writer, uint64_t home, uint64_t n)
{
    uint64_t t8;
    bool t9;

    t8 = 0u;
    while (t8 < n) {
        t9 = call_rights__may_read(log, area, state, newest, writer, home + t8);
        if (!t9) {
            return false;
        }
        t8 = t8 + 1u;
    }
    return true;
}

/* The answer of a fetch: 0, or the number of the question that refuses it. */
static inline uint64_t call_many_fetch__questions__fetch_answer(struct slice_u8 log, struct slice_u8 area, struct slice_u8 state,
        struct slice_u8 newest, struct slice_u8 blocks, uint64_t writer, uint64_t home)
{
    uint64_t t8;
    bool t9;

    t8 = call_many_fetch__questions__homes_answer(log, area, state, newest, blocks, writer, home);
    if (t8 != 0u) {
        return t8;
    }
    t9 = call_many_fetch__allowed__may_read_all(log, area, state, newest, writer, home, (uint64_t)blocks.len / 64u);
    if (!t9) {
        return 20u;
    }
    return 0u;
}

/* Whether a writer holds a block for a home. */
static inline bool call_read__blocks__holds_home(struct model__Writer r, uint64_t home)
{
    if (!(2u <= r.mode)) {
        return false;
    }
    return r.home == home;
}

/* Writes the block that stands in `src` from index `from` on into `dst` from index `at` on. */
static inline void base_areas__blocks__copy_block(struct slice_mut_u8 dst, uint64_t at, struct slice_u8 src, uint64_t from)
{
    base_codec__blocks__copy(dst, at, (struct slice_u8){src.ptr + (size_t)from, (size_t)((from + 64u) - from)});
}

/* Copies the block that a writer holds. */
static inline void call_read__blocks__show_held(struct slice_mut_u8 block, struct slice_u8 state, uint64_t w)
{
    base_areas__blocks__copy_block(block, 0u, state, 320u + (64u * w));
}

/* How many positions from `position` on lie before another. */
static inline uint64_t log_scan__commits__skipped(uint64_t position, uint64_t first)
{
    if (first < position) {
        return 0u;
    }
    return first - position;
}

/* The distance back to its first entry that tag `k` of a group holds, used or not, if its data block has the turn of the group:
   what belongs to a transaction has it, so it is compared first. */
static inline uint64_t log_scan__groups__back_in(struct slice_u8 group, uint64_t turn, uint64_t k)
{
    uint64_t t4;

    t4 = log_scan__groups__word_there(group, turn, k);
    return (t4 >> 14u) & 8191u;
}

/* What tag `k` of a group says if its data block has the turn of the group. */
static inline struct model__Tag log_scan__groups__tag_there(struct slice_u8 group, uint64_t turn, uint64_t k, uint64_t position,
        uint64_t base, uint64_t homes)
{
    uint64_t t7;

    t7 = log_scan__groups__word_there(group, turn, k);
    return base_codec__tags__read_tag(t7, position, base, homes);
}

/* The newest entry once one for a home is seen at a position. */
static inline uint64_t log_search__own__note(uint64_t written, uint64_t home, uint64_t position, uint64_t newest)
{
    if (written != home) {
        return newest;
    }
    return position + 1u;
}

/* The same if tag `k` of a group with turn `turn` is an entry of the transaction with first position `first`. Its distance back
   is compared before all else. */
static inline uint64_t log_search__own__note_entry(struct slice_u8 group, uint64_t turn, uint64_t k, uint64_t position,
        uint64_t base, uint64_t homes, uint64_t first, uint64_t home, uint64_t newest)
{
    uint64_t t12, t16;
    struct model__Tag t15;

    t12 = log_scan__groups__back_in(group, turn, k);
    if (t12 != (position - first)) {
        return newest;
    }
    t15 = log_scan__groups__tag_there(group, turn, k, position, base, homes);
    if (t15.tag == 0u) {
        t16 = newest;
    } else if (t15.tag == 1u) {
        t16 = log_search__own__note(t15.u64_0, home, position, newest);
    } else {
        t16 = log_search__own__note(t15.u64_0, home, position, newest);
    }
    return t16;
}

/* The same for the transaction's entries among the first `m` of a group, which says nothing where it is not the valid group with
   number `n` and turn `turn`. */
static inline uint64_t log_search__own__note_group(struct slice_u8 group, uint64_t groups, uint64_t homes, uint64_t start,
        uint64_t n, uint64_t turn, uint64_t m, uint64_t first, uint64_t home, uint64_t newest)
{
    uint64_t t11, t12, t13, t14;
    bool t15;

    t15 = log_scan__groups__group_valid(group, groups, start, n);
    if (!t15) {
        return newest;
    }
    t11 = 7u * start;
    t12 = newest;
    t13 = log_scan__commits__skipped(7u * n, first);
    t14 = (7u * n) + t13;
    while (t13 < m) {
        t12 = log_search__own__note_entry(group, turn, t13, t14, t11, homes, first, home, t12);
        t14 = t14 + 1u;
        t13 = t13 + 1u;
    }
    return t12;
}

/* Those of the group before. [S-20] */
static inline struct log_scan__slots__RingSlot log_scan__slots__previous_slot(struct log_scan__slots__RingSlot at,
        uint64_t groups)
{
    uint64_t t3, t4;

    t3 = at.slot;
    t4 = at.turn;
    if (t3 == 0u) {
        return (struct log_scan__slots__RingSlot){.slot = groups - 1u, .turn = 1u - t4};
    }
    return (struct log_scan__slots__RingSlot){.slot = t3 - 1u, .turn = t4};
}

/* Whether all seven do, where the distance is that of the first tag and one more for each after it. */
static inline bool log_search__sought__none_sought(struct slice_u8 group, uint64_t bits)
{
    if (!((load_8(group.ptr + (size_t)(8u + ((uint64_t)8u * 0u))) & UINT64_C(0x1e0000007fffffc)) != bits)) {
        return false;
    }
    if (!((load_8(group.ptr + (size_t)(8u + ((uint64_t)8u * 1u))) & UINT64_C(0x1e0000007fffffc)) != (bits + 16384u))) {
        return false;
    }
    if (!((load_8(group.ptr + (size_t)(8u + ((uint64_t)8u * 2u))) & UINT64_C(0x1e0000007fffffc)) != (bits + 32768u))) {
        return false;
    }
    if (!((load_8(group.ptr + (size_t)(8u + ((uint64_t)8u * 3u))) & UINT64_C(0x1e0000007fffffc)) != (bits + 49152u))) {
        return false;
    }
    if (!((load_8(group.ptr + (size_t)(8u + ((uint64_t)8u * 4u))) & UINT64_C(0x1e0000007fffffc)) != (bits + UINT64_C(0x10000)))) {
        return false;
    }
    if (!((load_8(group.ptr + (size_t)(8u + ((uint64_t)8u * 5u))) & UINT64_C(0x1e0000007fffffc)) != (bits + UINT64_C(0x14000)))) {
        return false;
    }
    return (load_8(group.ptr + (size_t)(8u + ((uint64_t)8u * 6u))) & UINT64_C(0x1e0000007fffffc)) != (bits + UINT64_C(0x18000));
}

/* The newest entry for a home of the transaction among all seven of a group, as its position + 1, 0 for none. Where none of the
   tags has the home and the distance of such an entry, nothing else of the group is looked at. */
static inline uint64_t log_search__own__note_seven(struct slice_u8 group, uint64_t groups, uint64_t homes, uint64_t start,
        uint64_t n, uint64_t turn, uint64_t first, uint64_t home)
{
    uint64_t t9;
    bool t11;

    t9 = 7u * n;
    if (first <= t9) {
        t11 = log_search__sought__none_sought(group, (((1u | ((home & 4095u) << 2u)) | ((t9 - first) << 14u))
                | ((home >> 12u) << 53u)) - 1u);
        if (t11) {
            return 0u;
        }
    }
    return log_search__own__note_group(group, groups, homes, start, n, turn, 7u, first, home, 0u);
}

/* The newest entry for a home, as its position + 1, 0 for none, of the open transaction with first position `first`, below
   position `end`: the last group that has one is the first that is looked at. */
static inline uint64_t log_search__own__newest_own(struct slice_u8 log, uint64_t groups, uint64_t homes, uint64_t start,
        uint64_t first, uint64_t end, uint64_t home)
{
    uint64_t t8, t9, t12, t14, t15;
    struct log_scan__slots__RingSlot t10;

    t8 = first / 7u;
    t9 = (end - 1u) / 7u;
    t10 = log_scan__slots__first_slot(t9, groups);
    t12 = 64u + (512u * t10.slot);
    t14 = log_search__own__note_group((struct slice_u8){log.ptr + (size_t)t12, (size_t)((t12 + 512u) - t12)}, groups, homes,
            start, t9, t10.turn, end - (7u * t9), first, home, 0u);
    while (t8 < t9) {
        if (t14 != 0u) {
            return t14;
        }
        t10 = log_scan__slots__previous_slot(t10, groups);
        t9 = t9 - 1u;
        t15 = 64u + (512u * t10.slot);
        t14 = log_search__own__note_seven((struct slice_u8){log.ptr + (size_t)t15, (size_t)((t15 + 512u) - t15)}, groups, homes,
                start, t9, t10.turn, first, home);
    }
    return t14;
}

/* The newest entry for a home in a writer's open transaction. */
static inline uint64_t call_read__newest__own_entry(struct slice_u8 log, struct model__State st, struct model__Writer r,
        uint64_t home)
{
    if (!(3u <= r.mode)) {
        return 0u;
    }
    return log_search__own__newest_own(log, st.groups, st.homes, st.start, r.first, (7u * st.next) + st.filled, home);
}

/* The entry for a home at the position kept for it. */
static inline uint64_t call_read__newest__kept_entry(struct slice_u8 log, struct slice_u8 state, struct slice_u8 newest,
        uint64_t home)
{
    uint64_t t5, t6;

    t5 = load_8(newest.ptr + (size_t)(8u * home));
    t6 = log_shown__place(log, state, home, t5);
    if (t6 == 0u) {
        return 0u;
    }
    return t5 + 1u;
}

/* The entry for a home that a writer sees: its newest own one, else that at the kept position. */
static inline uint64_t call_read__newest__seen(struct slice_u8 log, struct slice_u8 state, struct slice_u8 newest,
        struct model__State st, struct model__Writer r, uint64_t home)
{
    uint64_t t7;

    t7 = call_read__newest__own_entry(log, st, r, home);
    if (t7 != 0u) {
        return t7;
    }
    return call_read__newest__kept_entry(log, state, newest, home);
}

/* Reads a home into a block buffer. */
static inline void base_areas__homes__get_home(struct slice_mut_u8 block, struct slice_u8 area, uint64_t home)
{
    base_areas__blocks__copy_block(block, 0u, area, 64u * home);
}

/* Writes the block that the entry at index `k` of the group in a ring slot gives, with the displaced bit back in its place, from
   index `at` on. [S-15] */
static inline void base_areas__groups__copy_entry(struct slice_mut_u8 dst, uint64_t at, struct slice_u8 log, uint64_t slot,
        uint64_t k)
{
    uint64_t t6;

    t6 = 64u + (512u * slot);
    base_codec__turns__copy_with_top_bit(dst, at, log, t6 + (64u + (64u * k)), (load_8(log.ptr + (size_t)(t6 + (8u
            + (8u * k)))) >> 57u) & 1u);
}

/* Copies the block that the entry at a position gives. */
static inline void log_shown__show_entry(struct slice_mut_u8 block, struct slice_u8 log, uint64_t groups, uint64_t position)
{
    base_areas__groups__copy_entry(block, 0u, log, (position / 7u) % groups, position % 7u);
}

/* Copies the block of a home that a writer sees. */
static inline void call_read__blocks__show(struct slice_u8 log, struct slice_u8 area, struct slice_u8 state,
        struct slice_u8 newest, struct slice_mut_u8 block, uint64_t writer, uint64_t home)
{
    struct model__State t8;
    uint64_t t9, t11, t26, t27;
    struct model__Writer t10;
    bool t12;

    t26 = load_8(state.ptr);
    t27 = load_8(state.ptr + 8u);
    t8 = (struct model__State){.groups = t26, .homes = t27, .start = load_8(state.ptr + 16u), .next = load_8(state.ptr + 24u),
            .filled = load_8(state.ptr + 32u), .settled = load_8(state.ptr + 40u), .fenced = load_8(state.ptr + 48u),
            .durable = load_8(state.ptr + 56u), .last = load_8(state.ptr + 64u), .round = load_8(state.ptr + 88u),
            .cursor = load_8(state.ptr + 96u)};
    t9 = writer;
    t10 = base_state__writers__writer(state, t9);
    t12 = call_read__blocks__holds_home(t10, home);
    if (t12) {
        call_read__blocks__show_held(block, state, t9);
        return;
    }
    t11 = call_read__newest__seen(log, state, newest, t8, t10, home);
    if (t11 == 0u) {
        base_areas__homes__get_home(block, area, home);
        return;
    }
    log_shown__show_entry(block, log, t8.groups, t11 - 1u);
}

/* Copies the block of a home that a writer sees to the index `at`. */
static inline void call_many_fetch__fetches__show_at(struct slice_u8 log, struct slice_u8 area, struct slice_u8 state,
        struct slice_u8 newest, struct slice_mut_u8 blocks, uint64_t at, uint64_t writer, uint64_t home)
{
    call_read__blocks__show(log, area, state, newest, (struct slice_mut_u8){blocks.ptr + (size_t)at, (size_t)((at + 64u) - at)},
            writer, home);
}

/* Copies the blocks that a writer sees of the homes from `home` on, one behind the other. */
static inline void call_many_fetch__fetches__show_all(struct slice_u8 log, struct slice_u8 area, struct slice_u8 state,
        struct slice_u8 newest, struct slice_mut_u8 blocks, uint64_t writer, uint64_t home)
{
    uint64_t t8, t9;

    t8 = (uint64_t)blocks.len / 64u;
    t9 = 0u;
    while (t9 < t8) {
        call_many_fetch__fetches__show_at(log, area, state, newest, blocks, 64u * t9, writer, home + t9);
        t9 = t9 + 1u;
    }
}

/* Reads the blocks of one to seven homes from `home` on, one behind the other, as a writer that may read them all sees them. */
static inline struct call_ask__Reply call_many_fetch__fetches__fetch(struct slice_u8 log, struct slice_u8 area,
        struct slice_u8 state, struct slice_u8 newest, struct slice_mut_u8 blocks, uint64_t writer, uint64_t home)
{
    uint64_t t8;

    t8 = call_many_fetch__questions__fetch_answer(log, area, state, newest, (struct slice_u8){blocks.ptr, blocks.len}, writer,
            home);
    if (t8 != 0u) {
        return (struct call_ask__Reply){.code = t8, .figure = 0u, .size = 0u};
    }
    call_many_fetch__fetches__show_all(log, area, state, newest, blocks, writer, home);
    return (struct call_ask__Reply){.code = 0u, .figure = 0u, .size = 0u};
}

/* Reads the blocks of one to seven homes from `home` on, one behind the other, as a writer that may read them all sees them.
   [S-7, S-9, S-62] */
static inline struct call_ask__Reply kagutin__kagutin_fetch(struct slice_u8 log, struct slice_u8 area, struct slice_u8 state,
        struct slice_u8 newest, struct slice_mut_u8 blocks, uint64_t writer, uint64_t home)
{
    return call_many_fetch__fetches__fetch(log, area, state, newest, blocks, writer, home);
}

/* How many places are promised to the eight writers together, mostly none. */
static inline uint64_t base_state__promises__promised(struct slice_u8 s)
{
    bool t2;

    t2 = base_state__promises__none_promised(s);
    if (t2) {
        return 0u;
    }
    return base_state__promises__promised_each(s);
}

/* Whether a flush leaves as many places as are promised. */
static inline bool base_state__promises__keeps_promises(struct slice_u8 s, struct model__State st)
{
    uint64_t t4;

    if (st.filled == 0u) {
        return true;
    }
    t4 = base_state__promises__promised(s);
    return t4 <= ((7u * (st.start + st.groups)) - (7u * (st.next + 1u)));
}

/* How many bytes a flush writes: a fence, and a part-filled group before it. */
static inline uint64_t call_flush__flush_size(struct model__State st)
{
    if (st.filled == 0u) {
        return 2u;
    }
    return (uint64_t)516u + 2u;
}

/* The answer of a flush: 0, or the number of the question that refuses it. */
static inline uint64_t call_flush__flush_answer(struct slice_u8 log, struct slice_u8 area, struct slice_u8 state,
        struct slice_u8 batch)
{
    uint64_t t5, t10, t12, t13;
    struct model__State t6;
    bool t7;

    t5 = call_ask__state_answer(log, area, state);
    if (t5 != 0u) {
        return t5;
    }
    t12 = load_8(state.ptr);
    t13 = load_8(state.ptr + 8u);
    t6 = (struct model__State){.groups = t12, .homes = t13, .start = load_8(state.ptr + 16u), .next = load_8(state.ptr + 24u),
            .filled = load_8(state.ptr + 32u), .settled = load_8(state.ptr + 40u), .fenced = load_8(state.ptr + 48u),
            .durable = load_8(state.ptr + 56u), .last = load_8(state.ptr + 64u), .round = load_8(state.ptr + 88u),
            .cursor = load_8(state.ptr + 96u)};
    t7 = base_state__promises__keeps_promises(state, t6);
    if (!t7) {
        return 18u;
    }
    t10 = call_flush__flush_size(t6);
    if ((uint64_t)batch.len < t10) {
        return 9u;
    }
    return 0u;
}

/* Writes the mark of a fence at index `at`. */
static inline void base_codec__marks__put_fence_mark(struct slice_mut_u8 dst, uint64_t at)
{
    struct array_u8_2 t3;
    struct slice_u8 t10;

    t3 = (struct array_u8_2){{70u, 78u}};
    t10 = (struct slice_u8){t3.at, 2u};
    dst.ptr[(size_t)at] = t10.ptr[0u];
    dst.ptr[(size_t)(at + 1u)] = t10.ptr[1u];
}

/* Appends a fence. [S-5] */
static inline uint64_t base_batch__records__fence(struct slice_mut_u8 batch, uint64_t at)
{
    base_codec__marks__put_fence_mark(batch, at);
    return at + 2u;
}

/* Writes a fence where no group is part-filled. */
static inline void call_flush__flush_none(struct slice_mut_u8 state, struct slice_mut_u8 batch, struct model__State st)
{
    (void)base_batch__records__fence(batch, 0u);
    store_8(state.ptr + 48u, 7u * st.next);
}

/* Hands on the part-filled group and writes a fence. */
static inline void call_flush__flush_part(struct slice_u8 log, struct slice_mut_u8 state, struct slice_mut_u8 batch,
        struct model__State st)
{
    uint64_t t6, t7;
    struct log_scan__slots__RingSlot t8;

    t8 = log_scan__slots__first_slot(st.next, st.groups);
    t6 = base_batch__records__group_write(batch, 0u, t8.slot, log);
    (void)base_batch__records__fence(batch, t6);
    t7 = st.next + 1u;
    store_8(state.ptr + 24u, t7);
    store_8(state.ptr + 32u, 0u);
    store_8(state.ptr + 48u, 7u * t7);
}

/* Hands on a part-filled group, if there is one, and writes a fence. */
static inline struct call_ask__Reply call_flush__flush(struct slice_u8 log, struct slice_u8 area, struct slice_mut_u8 state,
        struct slice_mut_u8 batch)
{
    uint64_t t5, t27, t28;
    struct model__State t6;

    t5 = call_flush__flush_answer(log, area, (struct slice_u8){state.ptr, state.len}, (struct slice_u8){batch.ptr, batch.len});
    if (t5 != 0u) {
        return (struct call_ask__Reply){.code = t5, .figure = 0u, .size = 0u};
    }
    t27 = load_8(state.ptr);
    t28 = load_8(state.ptr + 8u);
    t6 = (struct model__State){.groups = t27, .homes = t28, .start = load_8(state.ptr + 16u), .next = load_8(state.ptr + 24u),
            .filled = load_8(state.ptr + 32u), .settled = load_8(state.ptr + 40u), .fenced = load_8(state.ptr + 48u),
            .durable = load_8(state.ptr + 56u), .last = load_8(state.ptr + 64u), .round = load_8(state.ptr + 88u),
            .cursor = load_8(state.ptr + 96u)};
    if (t6.filled == 0u) {
        call_flush__flush_none(state, batch, t6);
        return (struct call_ask__Reply){.code = 0u, .figure = 0u, .size = 2u};
    }
    call_flush__flush_part(log, state, batch, t6);
    return (struct call_ask__Reply){.code = 0u, .figure = 0u, .size = (uint64_t)516u + 2u};
}

/* Submits the group that is being filled, and a fence. [S-7, S-9, S-33] */
static inline struct call_ask__Reply kagutin__kagutin_flush(struct slice_u8 log, struct slice_u8 area, struct slice_mut_u8 state,
        struct slice_mut_u8 batch)
{
    return call_flush__flush(log, area, state, batch);
}

/* The questions of format: 0, or the number of the refusal. */
static inline uint64_t call_open__formatting__format_answer(struct slice_u8 log, struct slice_u8 area, struct slice_u8 batch)
{
    uint64_t t4;
    bool t6;

    t6 = base_areas__lengths__log_right((uint64_t)log.len);
    if (!t6) {
        return 1u;
    }
    t6 = base_areas__lengths__data_right((uint64_t)area.len);
    if (!t6) {
        return 1u;
    }
    t4 = base_areas__lengths__log_groups((uint64_t)log.len);
    if ((uint64_t)batch.len < ((138u + (516u * t4)) + (68u * ((uint64_t)area.len / 64u)))) {
        return 9u;
    }
    return 0u;
}

/* Writes the mark of the log's header at index `at`. */
static inline void base_codec__marks__put_header_mark(struct slice_mut_u8 dst, uint64_t at)
{
    struct array_u8_2 t3;
    struct slice_u8 t10;

    t3 = (struct array_u8_2){{80u, 84u}};
    t10 = (struct slice_u8){t3.at, 2u};
    dst.ptr[(size_t)at] = t10.ptr[0u];
    dst.ptr[(size_t)(at + 1u)] = t10.ptr[1u];
}

/* Writes a header of 64 bytes from index `at` on, and leaves the other bytes as they were. */
static inline void base_areas__header__put_header(struct slice_mut_u8 dst, uint64_t at, uint64_t start, uint64_t groups,
        uint64_t homes)
{
    uint64_t t19;

    base_codec__marks__put_header_mark(dst, at);
    t19 = at + 2u;
    store_4(dst.ptr + (size_t)t19, start);
    store_2(dst.ptr + (size_t)(t19 + 4u), start / UINT64_C(0x100000000));
    store_2(dst.ptr + (size_t)(at + 8u), groups);
    store_2(dst.ptr + (size_t)(at + 10u), homes);
    base_codec__blocks__clear(dst, at + 12u, 52u);
}

/* The turn bit of an unused ring slot: opposite to that of the group which it gets next, in a log whose start lies in the slot
   `first` and has the turn `turn`. The slots before the start's get a group of the next turn. */
static inline uint64_t base_areas__unused__unused_bit(uint64_t slot, uint64_t first, uint64_t turn)
{
    uint64_t t5;

    if (slot < first) {
        t5 = turn;
    } else {
        t5 = 1u - turn;
    }
    return t5;
}

/* Writes an unused group, whose data blocks have the turn bit `bit`, from index `at` on. */
static inline void base_areas__unused__put_unused(struct slice_mut_u8 dst, uint64_t at, uint64_t bit)
{
    base_codec__blocks__clear(dst, at, 64u);
    base_areas__turns__put_turn_blocks(dst, at + 64u, bit);
}

/* Makes a log copy empty, with its start at group `start`. */
static inline void base_areas__unused__put_empty_log(struct slice_mut_u8 log, uint64_t start, uint64_t groups, uint64_t homes)
{
    uint64_t t5, t6, t7, t19;

    base_areas__header__put_header(log, 0u, start, groups, homes);
    t5 = start % groups;
    t6 = (start / groups) % 2u;
    t7 = 0u;
    while (t7 < groups) {
        t19 = base_areas__unused__unused_bit(t7, t5, t6);
        base_areas__unused__put_unused(log, 64u + (512u * t7), t19);
        t7 = t7 + 1u;
    }
}

/* Makes every byte of the data copy zero. */
static inline void call_open__formatting__format_area(struct slice_mut_u8 area)
{
    base_codec__blocks__clear(area, 0u, (uint64_t)area.len);
}

/* Writes the mark of a header write at index `at`. */
static inline void base_codec__marks__put_header_write_mark(struct slice_mut_u8 dst, uint64_t at)
{
    struct array_u8_2 t3;
    struct slice_u8 t10;

    t3 = (struct array_u8_2){{75u, 87u}};
    t10 = (struct slice_u8){t3.at, 2u};
    dst.ptr[(size_t)at] = t10.ptr[0u];
    dst.ptr[(size_t)(at + 1u)] = t10.ptr[1u];
}

/* Appends the write of zeros to the header. */
static inline uint64_t base_batch__records__zero_header_write(struct slice_mut_u8 batch, uint64_t at)
{
    base_codec__marks__put_header_write_mark(batch, at);
    base_codec__blocks__clear(batch, at + 2u, 64u);
    return at + 66u;
}

/* Appends the write of an unused group, whose data blocks have the turn bit `bit`, to a ring slot. */
static inline uint64_t base_batch__records__unused_write(struct slice_mut_u8 batch, uint64_t at, uint64_t slot, uint64_t bit)
{
    base_codec__marks__put_group_write_mark(batch, at);
    store_2(batch.ptr + (size_t)(at + 2u), slot);
    base_areas__unused__put_unused(batch, at + 4u, bit);
    return at + 516u;
}

/* Appends the writes of all ring slots as unused, rising, for a log that starts at group `start`. */
static inline uint64_t base_batch__format__all_groups(struct slice_mut_u8 batch, uint64_t at, uint64_t start, uint64_t groups)
{
    uint64_t t5, t6, t7, t8, t13;

    t5 = start % groups;
    t6 = (start / groups) % 2u;
    t7 = at;
    t8 = 0u;
    while (t8 < groups) {
        t13 = base_areas__unused__unused_bit(t8, t5, t6);
        t7 = base_batch__records__unused_write(batch, t7, t8, t13);
        t8 = t8 + 1u;
    }
    return t7;
}

/* Writes the mark of a home write at index `at`. */
static inline void base_codec__marks__put_home_write_mark(struct slice_mut_u8 dst, uint64_t at)
{
    struct array_u8_2 t3;
    struct slice_u8 t10;

    t3 = (struct array_u8_2){{72u, 87u}};
    t10 = (struct slice_u8){t3.at, 2u};
    dst.ptr[(size_t)at] = t10.ptr[0u];
    dst.ptr[(size_t)(at + 1u)] = t10.ptr[1u];
}

/* Appends the write of zeros to a home. */
static inline uint64_t base_batch__records__zero_home_write(struct slice_mut_u8 batch, uint64_t at, uint64_t home)
{
    base_codec__marks__put_home_write_mark(batch, at);
    store_2(batch.ptr + (size_t)(at + 2u), home);
    base_codec__blocks__clear(batch, at + 4u, 64u);
    return at + 68u;
}

/* Appends the writes of zeros to the first `homes` homes, rising. */
static inline uint64_t base_batch__format__all_homes(struct slice_mut_u8 batch, uint64_t at, uint64_t homes)
{
    uint64_t t4, t5;

    t4 = at;
    t5 = 0u;
    while (t5 < homes) {
        t4 = base_batch__records__zero_home_write(batch, t4, t5);
        t5 = t5 + 1u;
    }
    return t4;
}

/* Appends the write of the header with a start and the numbers of groups and homes. [S-5] */
static inline uint64_t base_batch__records__header_write(struct slice_mut_u8 batch, uint64_t at, uint64_t start, uint64_t groups,
        uint64_t homes)
{
    base_codec__marks__put_header_write_mark(batch, at);
    base_areas__header__put_header(batch, at + 2u, start, groups, homes);
    return at + 66u;
}

/* Writes the whole batch of format from the buffer's first byte on. */
static inline uint64_t base_batch__format__format_batch(struct slice_mut_u8 batch, uint64_t groups, uint64_t homes)
{
    uint64_t t4;

    t4 = base_batch__records__zero_header_write(batch, 0u);
    t4 = base_batch__records__fence(batch, t4);
    t4 = base_batch__format__all_groups(batch, t4, 0u, groups);
    t4 = base_batch__format__all_homes(batch, t4, homes);
    t4 = base_batch__records__fence(batch, t4);
    t4 = base_batch__records__header_write(batch, t4, 0u, groups, homes);
    return base_batch__records__fence(batch, t4);
}

/* Formats both copies, and writes the batch that formats the areas. */
static inline struct call_ask__Reply call_open__formatting__format(struct slice_mut_u8 log, struct slice_mut_u8 area,
        struct slice_mut_u8 batch)
{
    uint64_t t4, t5, t6, t7;

    t4 = call_open__formatting__format_answer((struct slice_u8){log.ptr, log.len}, (struct slice_u8){area.ptr, area.len},
            (struct slice_u8){batch.ptr, batch.len});
    if (t4 != 0u) {
        return (struct call_ask__Reply){.code = t4, .figure = 0u, .size = 0u};
    }
    t5 = base_areas__lengths__log_groups((uint64_t)log.len);
    t6 = (uint64_t)area.len / 64u;
    base_areas__unused__put_empty_log(log, 0u, t5, t6);
    call_open__formatting__format_area(area);
    t7 = base_batch__format__format_batch(batch, t5, t6);
    return (struct call_ask__Reply){.code = 0u, .figure = 0u, .size = t7};
}

/* Writes an empty store: every group unused, every home zeros, then the header. [S-7, S-9, S-21, S-22] */
static inline struct call_ask__Reply kagutin__kagutin_format(struct slice_mut_u8 log, struct slice_mut_u8 area,
        struct slice_mut_u8 batch)
{
    return call_open__formatting__format(log, area, batch);
}

/* Reads the shape of a log copy and a data copy. */
static inline struct call_open__opening__Shape call_open__opening__measure(struct slice_u8 log, struct slice_u8 area)
{
    uint64_t t3;

    t3 = base_areas__lengths__log_groups((uint64_t)log.len);
    return (struct call_open__opening__Shape){.groups = t3, .homes = (uint64_t)area.len / 64u, .start = load_4(log.ptr + 2u)
            | (load_2(log.ptr + (size_t)((uint64_t)2u + 4u)) << 32u)};
}

/* Whether the two bytes of `mark` stand at index `at`. */
static inline bool base_codec__marks__has_mark(struct slice_u8 s, uint64_t at, struct slice_u8 mark)
{
    if (s.ptr[(size_t)at] != mark.ptr[0u]) {
        return false;
    }
    if (s.ptr[(size_t)(at + 1u)] != mark.ptr[1u]) {
        return false;
    }
    return true;
}

/* Whether the mark of the log's header stands at index `at`. */
static inline bool base_codec__marks__has_header_mark(struct slice_u8 s, uint64_t at)
{
    struct array_u8_2 t3;

    t3 = (struct array_u8_2){{80u, 84u}};
    return base_codec__marks__has_mark(s, at, (struct slice_u8){t3.at, 2u});
}

/* Whether the `n` bytes from index `at` on are all zero. */
static inline bool base_codec__blocks__all_zero(struct slice_u8 s, uint64_t at, uint64_t n)
{
    uint64_t t4, t5;

    t4 = at;
    t5 = n;
    while (8u <= t5) {
        if (load_8(s.ptr + (size_t)t4) != 0u) {
            return false;
        }
        t4 = t4 + 8u;
        t5 = t5 - 8u;
    }
    while (0u < t5) {
        if (s.ptr[(size_t)t4] != 0u) {
            return false;
        }
        t4 = t4 + 1u;
        t5 = t5 - 1u;
    }
    return true;
}

/* Whether the log begins with a header's mark, these numbers of groups and homes, and a header's zeros. */
static inline bool base_areas__header__header_right(struct slice_u8 log, uint64_t groups, uint64_t homes)
{
    bool t4;

    t4 = base_codec__marks__has_header_mark(log, 0u);
    if (!t4) {
        return false;
    }
    if (load_2(log.ptr + 8u) != groups) {
        return false;
    }
    if (load_2(log.ptr + 10u) != homes) {
        return false;
    }
    return base_codec__blocks__all_zero(log, 12u, 52u);
}

/* The questions of open but the last: 0, or the number of the refusal. */
static inline uint64_t call_open__opening__open_answer(struct slice_u8 log, struct slice_u8 area, struct slice_u8 state,
        struct slice_u8 newest)
{
    struct call_open__opening__Shape t5;
    bool t6, t7;

    t6 = call_ask__lengths_right(log, area, state);
    if (!t6) {
        return 1u;
    }
    t5 = call_open__opening__measure(log, area);
    if ((uint64_t)newest.len != (8u * t5.homes)) {
        return 1u;
    }
    t7 = base_areas__header__header_right(log, t5.groups, t5.homes);
    if (!t7) {
        return 3u;
    }
    if (UINT64_C(0x800000000000) < t5.start) {
        return 3u;
    }
    if (UINT64_C(0x800000000000) < (t5.start + t5.groups)) {
        return 10u;
    }
    return 0u;
}

/* How many of the `left` positions the next group has. */
static inline uint64_t log_scan__commits__in_group(uint64_t left)
{
    uint64_t t3;

    if (left < 7u) {
        t3 = left;
    } else {
        t3 = 7u;
    }
    return t3;
}

/* Takes the entry at an offset, whose transaction's first entry is at the offset `first`. */
static inline struct log_scan__commits__Progress log_gather__walking__join_entry(struct slice_mut_u16 cells,
        struct slice_mut_u16 heads, struct slice_mut_u16 links, uint64_t home, uint64_t first, uint64_t offset,
        struct log_scan__commits__Progress progress)
{
    uint16_t t8;
    uint64_t t22;

    t8 = cells.ptr[(size_t)first];
    if (32768u <= t8) {
        return (struct log_scan__commits__Progress){.end = progress.end, .number = progress.number, .failed = 2u};
    }
    cells.ptr[(size_t)first] = (uint16_t)((uint32_t)t8 + 1u);
    t22 = home / 64u;
    links.ptr[(size_t)offset] = heads.ptr[(size_t)t22];
    heads.ptr[(size_t)t22] = (uint16_t)(offset + 1u);
    return progress;
}

/* Takes the word of an entry that does not close its transaction, at index `index` of the log; `above` is the word of an entry
   for the first home that there is not. */
static inline struct log_scan__commits__Progress log_gather__walking__visit_plain(uint64_t word, uint64_t above, uint64_t base,
        uint64_t index, struct slice_mut_u16 cells, struct slice_mut_u16 heads, struct slice_mut_u16 links,
        struct log_scan__commits__Progress progress)
{
    uint64_t t9;
    (void)base;

    if (!((word & UINT64_C(0x1e0000000003ffd)) < above)) {
        return progress;
    }
    t9 = (word >> 14u) & 8191u;
    if (index < t9) {
        return progress;
    }
    return log_gather__walking__join_entry(cells, heads, links, ((word >> 2u) & 4095u) + (4096u * ((word >> 53u) & 15u)),
            index - t9, index, progress);
}

/* Whether a closing entry at a position is linked, by its distance back, to the last one, which ends at `end`, or where there is
   none (0) to a position before the start or to none. */
static inline bool log_scan__commits__is_linked(uint64_t end, uint64_t base, uint64_t position, uint64_t link)
{
    if (end != 0u) {
        return (position + 1u) == (end + link);
    }
    if (link == 0u) {
        return true;
    }
    return position < (base + link);
}

/* Takes a closing entry, complete or not, at a position: it is committed, or the first that fails. */
static inline struct log_scan__commits__Progress log_scan__commits__decide(struct log_scan__commits__Progress progress,
        uint64_t base, uint64_t position, uint64_t link, bool complete)
{
    uint64_t t6, t7;
    struct log_scan__commits__Progress t8;
    bool t9;

    t6 = progress.end;
    t7 = progress.number;
    t8 = (struct log_scan__commits__Progress){.end = t6, .number = t7, .failed = 1u};
    if (progress.failed != 0u) {
        return t8;
    }
    t9 = log_scan__commits__is_linked(t6, base, position, link);
    if (!t9) {
        return t8;
    }
    if (!complete) {
        return t8;
    }
    return (struct log_scan__commits__Progress){.end = position + 1u, .number = t7 + 1u, .failed = 0u};
}

/* Takes the closing entry at a position: if it is committed, its transaction's cell holds it from now on. */
static inline struct log_scan__commits__Progress log_gather__walking__join_closing(struct slice_mut_u16 cells,
        struct slice_mut_u16 heads, struct slice_mut_u16 links, uint64_t base, uint64_t position, uint64_t home, uint64_t first,
        uint64_t link, uint64_t count, struct log_scan__commits__Progress progress)
{
    uint16_t t11;
    struct log_scan__commits__Progress t12;
    uint64_t t13, t30;

    t11 = cells.ptr[(size_t)first];
    if (32768u <= t11) {
        return (struct log_scan__commits__Progress){.end = progress.end, .number = progress.number, .failed = 2u};
    }
    t12 = log_scan__commits__decide(progress, base, position, link, ((uint64_t)t11 + 1u) == count);
    if (t12.failed != 0u) {
        return t12;
    }
    t13 = position - base;
    cells.ptr[(size_t)first] = (uint16_t)((uint32_t)32768u + (uint16_t)(t13 + 1u));
    t30 = home / 64u;
    links.ptr[(size_t)t13] = heads.ptr[(size_t)t30];
    heads.ptr[(size_t)t30] = (uint16_t)(t13 + 1u);
    return t12;
}

/* The same for the word of a closing entry. */
static inline struct log_scan__commits__Progress log_gather__walking__visit_closing(uint64_t word, uint64_t above, uint64_t base,
        uint64_t index, struct slice_mut_u16 cells, struct slice_mut_u16 heads, struct slice_mut_u16 links,
        struct log_scan__commits__Progress progress)
{
    uint64_t t9, t10;

    if (!((word & UINT64_C(0x1e0000000003ffd)) < above)) {
        return progress;
    }
    t9 = (word >> 14u) & 8191u;
    if (index < t9) {
        return progress;
    }
    t10 = (word >> 40u) & 8191u;
    if (t10 == 0u) {
        return progress;
    }
    return log_gather__walking__join_closing(cells, heads, links, base, base + index, ((word >> 2u) & 4095u)
            + (4096u * ((word >> 53u) & 15u)), index - t9, (word >> 27u) & 8191u, t10, progress);
}

/* Takes what the word of a tag says at index `index` of the log. */
static inline struct log_scan__commits__Progress log_gather__walking__visit(uint64_t word, uint64_t above, uint64_t base,
        uint64_t index, struct slice_mut_u16 cells, struct slice_mut_u16 heads, struct slice_mut_u16 links,
        struct log_scan__commits__Progress progress)
{
    if ((word & UINT64_C(0xfc1ffffff8000003)) == 1u) {
        return log_gather__walking__visit_plain(word, above, base, index, cells, heads, links, progress);
    }
    if ((word & UINT64_C(0xfc00000000000003)) == 3u) {
        return log_gather__walking__visit_closing(word, above, base, index, cells, heads, links, progress);
    }
    return progress;
}

/* Takes the first `m` tags of a group, or those before the walk stops. The group says nothing where it is not the valid group
   with number `n` and turn `turn`. */
static inline struct log_scan__commits__Progress log_gather__walking__visit_group(struct slice_u8 group, uint64_t groups,
        uint64_t homes, uint64_t start, uint64_t n, uint64_t turn, uint64_t m, struct slice_mut_u16 cells,
        struct slice_mut_u16 heads, struct slice_mut_u16 links, struct log_scan__commits__Progress progress)
{
    uint64_t t12, t13, t14, t16, t21;
    struct log_scan__commits__Progress t15;
    bool t17;

    t17 = log_scan__groups__group_valid(group, groups, start, n);
    if (!t17) {
        return progress;
    }
    t12 = ((1u | ((homes & 4095u) << 2u)) | ((uint64_t)0u << 14u)) | ((homes >> 12u) << 53u);
    t13 = 7u * start;
    t14 = (7u * n) - t13;
    t15 = progress;
    t16 = 0u;
    while (t16 < m) {
        t21 = log_scan__groups__word_there(group, turn, t16);
        t15 = log_gather__walking__visit(t21, t12, t13, t14 + t16, cells, heads, links, t15);
        if (t15.failed != 0u) {
            return t15;
        }
        t16 = t16 + 1u;
    }
    return t15;
}

/* Takes the `n` positions of the log from its start on, group by group, until the walk stops. */
static inline struct log_scan__commits__Progress log_gather__walking__pass(struct slice_u8 log, struct slice_mut_u16 cells,
        struct slice_mut_u16 heads, struct slice_mut_u16 links, uint64_t groups, uint64_t homes, uint64_t start, uint64_t n)
{
    struct log_scan__commits__Progress t9;
    struct log_scan__slots__RingSlot t10;
    uint64_t t11, t12, t13, t15;

    t9 = (struct log_scan__commits__Progress){.end = 0u, .number = 0u, .failed = 0u};
    t10 = log_scan__slots__first_slot(start, groups);
    t11 = start;
    t12 = n;
    while (0u < t12) {
        t13 = 64u + (512u * t10.slot);
        t15 = log_scan__commits__in_group(t12);
        t9 = log_gather__walking__visit_group((struct slice_u8){log.ptr + (size_t)t13, (size_t)((t13 + 512u) - t13)}, groups,
                homes, start, t11, t10.turn, t15, cells, heads, links, t9);
        if (t9.failed != 0u) {
            return t9;
        }
        t10 = log_scan__slots__next_slot(t10, groups);
        t11 = t11 + 1u;
        t12 = t12 - t15;
    }
    return t9;
}

/* The closing entry that a cell holds, 0 for none. */
static inline uint16_t log_gather__walking__closer_in(uint16_t cell)
{
    uint16_t t3;

    if (cell < 32768u) {
        t3 = 0u;
    } else {
        t3 = (uint16_t)((uint32_t)cell - 32768u);
    }
    return t3;
}

/* Leaves in a cell only a closing entry, where the cells before it hold no counts. */
static inline void log_gather__walking__drop_one(struct slice_mut_u16 cells, uint64_t k)
{
    uint16_t t3;

    t3 = log_gather__walking__closer_in(cells.ptr[(size_t)k]);
    cells.ptr[(size_t)k] = t3;
}

/* The same for the eight cells from `k` on, in a row. */
static inline void log_gather__walking__drop_eight(struct slice_mut_u16 cells, uint64_t k)
{
    log_gather__walking__drop_one(cells, k);
    log_gather__walking__drop_one(cells, k + 1u);
    log_gather__walking__drop_one(cells, k + 2u);
    log_gather__walking__drop_one(cells, k + 3u);
    log_gather__walking__drop_one(cells, k + 4u);
    log_gather__walking__drop_one(cells, k + 5u);
    log_gather__walking__drop_one(cells, k + 6u);
    log_gather__walking__drop_one(cells, k + 7u);
}

/* The same for the cells from `from` to below `n`, where all others from there on are 0. */
static inline void log_gather__walking__drop_rest(struct slice_mut_u16 cells, uint64_t from, uint64_t n)
{
    uint64_t t4;

    t4 = from;
    while (t4 < n) {
        log_gather__walking__drop_one(cells, t4);
        t4 = t4 + 1u;
    }
}

/* Leaves in the first `n` cells, where all others are 0, only the closing entries, and no counts, eight at a time. */
static inline void log_gather__walking__drop_counts(struct slice_mut_u16 cells, uint64_t n)
{
    uint64_t t3, t4;

    t3 = 0u;
    t4 = n;
    while (8u <= t4) {
        log_gather__walking__drop_eight(cells, t3);
        t3 = t3 + 8u;
        t4 = t4 - 8u;
    }
    log_gather__walking__drop_rest(cells, t3, n);
}

/* Walks the `n` positions of the log from its start on with empty tables, and finds where the committed transactions end and how
   many they are, their closing entries and the chains. A log in which an entry comes after its transaction's closing one, as no
   store writes it, stops the walk with the sign 2, and nothing is found: it takes two passes. */
static inline struct log_scan__commits__Progress log_gather__walking__walk(struct slice_u8 log, struct slice_mut_u16 last,
        struct slice_mut_u16 heads, struct slice_mut_u16 links, uint64_t groups, uint64_t homes, uint64_t start, uint64_t n)
{
    struct log_scan__commits__Progress t9;

    t9 = log_gather__walking__pass(log, last, heads, links, groups, homes, start, n);
    if (t9.failed != 2u) {
        log_gather__walking__drop_counts(last, n);
    }
    return t9;
}

/* Makes a table empty. */
static inline void log_gather__twice__clear(struct slice_mut_u16 table)
{
    uint64_t t2, t3;

    t2 = 0u;
    t3 = (uint64_t)table.len;
    while (0u < t3) {
        table.ptr[(size_t)t2] = 0u;
        t2 = t2 + 1u;
        t3 = t3 - 1u;
    }
}

/* Takes the word of an entry that does not close its transaction, at index `index` of the log; `above` is the word of an entry
   for the first home that there is not. */
static inline struct log_scan__commits__Progress log_scan__commits__visit_plain(uint64_t word, uint64_t above, uint64_t base,
        uint64_t index, struct slice_mut_u16 counts, struct log_scan__commits__Progress progress)
{
    uint64_t t7, t20;
    (void)base;

    if (!((word & UINT64_C(0x1e0000000003ffd)) < above)) {
        return progress;
    }
    t7 = (word >> 14u) & 8191u;
    if (index < t7) {
        return progress;
    }
    t20 = index - t7;
    counts.ptr[(size_t)t20] = (uint16_t)((uint32_t)counts.ptr[(size_t)t20] + 1u);
    return progress;
}

/* The same for the word of a closing entry. */
static inline struct log_scan__commits__Progress log_scan__commits__visit_closing(uint64_t word, uint64_t above, uint64_t base,
        uint64_t index, struct slice_mut_u16 counts, struct log_scan__commits__Progress progress)
{
    uint64_t t7, t8, t24;
    uint16_t t25;

    if (!((word & UINT64_C(0x1e0000000003ffd)) < above)) {
        return progress;
    }
    t7 = (word >> 14u) & 8191u;
    if (index < t7) {
        return progress;
    }
    t8 = (word >> 40u) & 8191u;
    if (t8 == 0u) {
        return progress;
    }
    t24 = index - t7;
    t25 = (uint16_t)((uint32_t)counts.ptr[(size_t)t24] + 1u);
    counts.ptr[(size_t)t24] = t25;
    return log_scan__commits__decide(progress, base, base + index, (word >> 27u) & 8191u, (uint64_t)t25 == t8);
}

/* Takes what the word of a tag says at index `index` of the log. */
static inline struct log_scan__commits__Progress log_scan__commits__visit(uint64_t word, uint64_t above, uint64_t base,
        uint64_t index, struct slice_mut_u16 counts, struct log_scan__commits__Progress progress)
{
    if ((word & UINT64_C(0xfc1ffffff8000003)) == 1u) {
        return log_scan__commits__visit_plain(word, above, base, index, counts, progress);
    }
    if ((word & UINT64_C(0xfc00000000000003)) == 3u) {
        return log_scan__commits__visit_closing(word, above, base, index, counts, progress);
    }
    return progress;
}

/* Takes the first `m` tags of a group, or those up to the first closing entry that fails. The group says nothing where it is not
   the valid group with number `n` and turn `turn`. */
static inline struct log_scan__commits__Progress log_scan__commits__visit_group(struct slice_u8 group, uint64_t groups,
        uint64_t homes, uint64_t start, uint64_t n, uint64_t turn, uint64_t m, struct slice_mut_u16 counts,
        struct log_scan__commits__Progress progress)
{
    uint64_t t10, t11, t12, t14, t19;
    struct log_scan__commits__Progress t13;
    bool t15;
    (void)groups;

    t15 = base_codec__marks__has_group_head(group, 0u, n);
    if (!t15) {
        return progress;
    }
    t10 = ((1u | ((homes & 4095u) << 2u)) | ((uint64_t)0u << 14u)) | ((homes >> 12u) << 53u);
    t11 = 7u * start;
    t12 = (7u * n) - t11;
    t13 = progress;
    t14 = 0u;
    while (t14 < m) {
        t19 = log_scan__groups__word_there(group, turn, t14);
        t13 = log_scan__commits__visit(t19, t10, t11, t12 + t14, counts, t13);
        if (t13.failed != 0u) {
            return t13;
        }
        t14 = t14 + 1u;
    }
    return t13;
}

/* Walks the `n` positions of the log from its start on, group by group, with empty counters, and finds where the committed
   transactions end and how many they are. */
static inline struct log_scan__commits__Found log_scan__commits__walk_with(struct slice_u8 log, struct slice_mut_u16 counts,
        uint64_t groups, uint64_t homes, uint64_t start, uint64_t n)
{
    struct log_scan__commits__Progress t7;
    struct log_scan__slots__RingSlot t8;
    uint64_t t9, t10, t11, t13;

    t7 = (struct log_scan__commits__Progress){.end = 0u, .number = 0u, .failed = 0u};
    t8 = log_scan__slots__first_slot(start, groups);
    t9 = start;
    t10 = n;
    while (0u < t10) {
        t11 = 64u + (512u * t8.slot);
        t13 = log_scan__commits__in_group(t10);
        t7 = log_scan__commits__visit_group((struct slice_u8){log.ptr + (size_t)t11, (size_t)((t11 + 512u) - t11)}, groups, homes,
                start, t9, t8.turn, t13, counts, t7);
        if (t7.failed != 0u) {
            return (struct log_scan__commits__Found){.end = t7.end, .number = t7.number};
        }
        t8 = log_scan__slots__next_slot(t8, groups);
        t9 = t9 + 1u;
        t10 = t10 - t13;
    }
    return (struct log_scan__commits__Found){.end = t7.end, .number = t7.number};
}

/* The words of a group's seven tags that are there, read in a row; `turn` is the group's. */
static inline struct array_u64_7 log_scan__groups__tag_words(struct slice_u8 group, uint64_t turn)
{
    struct array_u64_7 t3;
    uint64_t t4, t6;

    memset(&t3, 0, sizeof t3);
    t4 = 0u;
    while (t4 < 7u) {
        t6 = log_scan__groups__word_there(group, turn, t4);
        t3.at[(size_t)t4] = t6;
        t4 = t4 + 1u;
    }
    return t3;
}

/* Takes what the word of a tag says at a position. */
static inline void log_gather__gathering__visit(uint64_t word, uint64_t position, uint64_t base, uint64_t homes,
        struct slice_mut_u16 last, struct slice_mut_u16 heads, struct slice_mut_u16 links)
{
    uint64_t t8, t33, t41;
    struct model__Tag t13;

    t8 = position - base;
    t13 = base_codec__tags__read_tag(word, position, base, homes);
    if (t13.tag == 0u) {
    } else if (t13.tag == 1u) {
        t33 = t13.u64_0 / 64u;
        links.ptr[(size_t)t8] = heads.ptr[(size_t)t33];
        heads.ptr[(size_t)t33] = (uint16_t)(t8 + 1u);
    } else {
        last.ptr[(size_t)(t13.u64_1 - base)] = (uint16_t)(t8 + 1u);
        t41 = t13.u64_0 / 64u;
        links.ptr[(size_t)t8] = heads.ptr[(size_t)t41];
        heads.ptr[(size_t)t41] = (uint16_t)(t8 + 1u);
    }
}

/* Takes the first `m` tags of a group, which says nothing where it is not the valid group with number `n` and turn `turn`. */
static inline void log_gather__gathering__visit_group(struct slice_u8 group, uint64_t groups, uint64_t homes, uint64_t start,
        uint64_t n, uint64_t turn, uint64_t m, struct slice_mut_u16 last, struct slice_mut_u16 heads, struct slice_mut_u16 links)
{
    struct array_u64_7 t11, t17;
    uint64_t t12, t13, t14;
    bool t15;

    t15 = log_scan__groups__group_valid(group, groups, start, n);
    if (!t15) {
        return;
    }
    t17 = log_scan__groups__tag_words(group, turn);
    t11 = t17;
    t12 = 7u * start;
    t13 = 7u * n;
    t14 = 0u;
    while (t14 < m) {
        log_gather__gathering__visit(t11.at[(size_t)t14], t13, t12, homes, last, heads, links);
        t13 = t13 + 1u;
        t14 = t14 + 1u;
    }
}

/* Finds in empty tables the last closing entries and the chains of all entries below `end`. */
static inline void log_gather__gathering__gather(struct slice_u8 log, struct slice_mut_u16 last, struct slice_mut_u16 heads,
        struct slice_mut_u16 links, uint64_t groups, uint64_t homes, uint64_t start, uint64_t end)
{
    uint64_t t9, t10, t11, t13, t15;
    struct log_scan__slots__RingSlot t12;

    t9 = 7u * start;
    if (end <= t9) {
        return;
    }
    t10 = end - t9;
    t11 = start;
    t12 = log_scan__slots__first_slot(start, groups);
    while (0u < t10) {
        t13 = 64u + (512u * t12.slot);
        t15 = log_scan__commits__in_group(t10);
        log_gather__gathering__visit_group((struct slice_u8){log.ptr + (size_t)t13, (size_t)((t13 + 512u) - t13)}, groups, homes,
                start, t11, t12.turn, t15, last, heads, links);
        t12 = log_scan__slots__next_slot(t12, groups);
        t11 = t11 + 1u;
        t10 = t10 - t15;
    }
}

/* Walks the `n` positions of the log from its start on in two passes with tables that may hold anything; the first counts entries
   in `last`. */
static inline struct log_scan__commits__Progress log_gather__twice__walk_twice(struct slice_u8 log, struct slice_mut_u16 last,
        struct slice_mut_u16 heads, struct slice_mut_u16 links, uint64_t groups, uint64_t homes, uint64_t start, uint64_t n)
{
    struct log_scan__commits__Found t9;

    log_gather__twice__clear(last);
    t9 = log_scan__commits__walk_with(log, last, groups, homes, start, n);
    log_gather__twice__clear(last);
    log_gather__twice__clear(heads);
    log_gather__twice__clear(links);
    log_gather__gathering__gather(log, last, heads, links, groups, homes, start, t9.end);
    return (struct log_scan__commits__Progress){.end = t9.end, .number = t9.number, .failed = 0u};
}

/* The lesser of two numbers. */
static inline uint64_t log_tables__whole__least(uint64_t a, uint64_t b)
{
    uint64_t t4;

    if (a < b) {
        t4 = a;
    } else {
        t4 = b;
    }
    return t4;
}

/* The ring slot that lies `n` slots after `slot`. */
static inline uint64_t log_replay__places__slot_after(uint64_t slot, uint64_t n, uint64_t groups)
{
    uint64_t t4, t6;

    t4 = slot + n;
    if (t4 < groups) {
        t6 = t4;
    } else {
        t6 = t4 - groups;
    }
    return t6;
}

/* The word of the tag at an offset, which says what the log does where there is an entry. */
static inline uint64_t log_replay__places__word_from(struct slice_u8 log, uint64_t groups, uint64_t start, uint64_t slot,
        uint64_t offset)
{
    uint64_t t6, t8;
    struct slice_u8 t16;
    (void)start;

    t8 = log_replay__places__slot_after(slot, offset / 7u, groups);
    t6 = 64u + (512u * t8);
    t16 = (struct slice_u8){log.ptr + (size_t)t6, (size_t)((t6 + 512u) - t6)};
    return load_8(t16.ptr + (size_t)(8u + (8u * (offset % 7u))));
}

/* Takes an entry as the newest of its home, the one with index `k` in its word, if its transaction closes later than that of the
   newest so far. */
static inline void log_replay__words__offer(struct slice_mut_u16 closers, struct slice_mut_u16 table, struct slice_mut_u64 map,
        uint64_t k, uint16_t closer, uint16_t code)
{
    uint64_t *t23;

    if (closers.ptr[(size_t)k] < closer) {
        closers.ptr[(size_t)k] = closer;
        table.ptr[(size_t)k] = code;
        t23 = map.ptr + (size_t)(k >> 6u);
        (*t23) = (*t23) | ((uint64_t)1u << ((k & 63u) & 63u));
    }
}

/* Takes the entry at an offset if its transaction, with its first entry at the offset `first`, is closed from there on. */
static inline void log_replay__words__take_entry(struct slice_u16 last, struct slice_mut_u16 closers, struct slice_mut_u16 table,
        struct slice_mut_u64 map, uint64_t home, uint64_t first, uint64_t offset)
{
    uint16_t t8;

    t8 = last.ptr[(size_t)first];
    if (offset < (uint64_t)t8) {
        log_replay__words__offer(closers, table, map, home % 64u, t8, (uint16_t)(offset + 1u));
    }
}

/* Takes what the log says at an offset where there is an entry. */
static inline void log_replay__words__take_at(struct slice_u8 log, struct slice_u16 last, struct slice_mut_u16 closers,
        struct slice_mut_u16 table, struct slice_mut_u64 map, uint64_t groups, uint64_t homes, uint64_t start, uint64_t slot,
        uint64_t offset)
{
    uint64_t t11;
    (void)homes;

    t11 = log_replay__places__word_from(log, groups, start, slot, offset);
    log_replay__words__take_entry(last, closers, table, map, (t11 >> 2u) & 63u, offset - ((t11 >> 14u) & 8191u), offset);
}

/* Finds the newest committed entries of the homes of word `w` in an empty table, and returns the word that marks the homes that
   have one. */
static inline uint64_t log_replay__words__newest_in(struct slice_u8 log, struct slice_u16 last, struct slice_u16 heads,
        struct slice_u16 links, struct slice_mut_u16 table, uint64_t w, uint64_t groups, uint64_t homes, uint64_t start,
        uint64_t end, uint64_t slot)
{
    struct array_u16_64 t12;
    struct array_u64_1 t13;
    uint16_t t14;
    uint64_t t15;
    (void)end;

    memset(&t12, 0, sizeof t12);
    t13 = (struct array_u64_1){{0u}};
    t14 = heads.ptr[(size_t)w];
    while (t14 != 0u) {
        t15 = (uint64_t)t14 - 1u;
        log_replay__words__take_at(log, last, (struct slice_mut_u16){t12.at, 64u}, table, (struct slice_mut_u64){t13.at, 1u},
                groups, homes, start, slot, t15);
        t14 = links.ptr[(size_t)t15];
    }
    return t13.at[0u];
}

/* How many homes of word `w` the transactions of all closing entries below `end` touch. */
static inline uint64_t log_replay__words__count_word(struct slice_u8 log, struct slice_u16 last, struct slice_u16 heads,
        struct slice_u16 links, uint64_t w, uint64_t groups, uint64_t homes, uint64_t start, uint64_t end, uint64_t slot)
{
    struct array_u16_64 t11;
    uint64_t t12;

    if (heads.ptr[(size_t)w] == 0u) {
        return 0u;
    }
    memset(&t11, 0, sizeof t11);
    t12 = log_replay__words__newest_in(log, last, heads, links, (struct slice_mut_u16){t11.at, 64u}, w, groups, homes, start, end,
            slot);
    return (uint64_t)count_ones(t12);
}

/* How many homes the transactions of all closing entries below `end` touch. */
static inline uint64_t log_replay__words__count(struct slice_u8 log, struct slice_u16 last, struct slice_u16 heads,
        struct slice_u16 links, uint64_t groups, uint64_t homes, uint64_t start, uint64_t end)
{
    uint64_t t9, t10, t11, t12, t17;
    struct log_scan__slots__RingSlot t13;

    t13 = log_scan__slots__first_slot(start, groups);
    t9 = t13.slot;
    t10 = (homes + 63u) / 64u;
    t11 = 0u;
    t12 = 0u;
    while (t12 < t10) {
        t17 = log_replay__words__count_word(log, last, heads, links, t12, groups, homes, start, end, t9);
        t11 = t11 + t17;
        t12 = t12 + 1u;
    }
    return t11;
}

/* Copies the block that the entry at an offset gives to a home. */
static inline void log_replay__places__restore_block(struct slice_u8 log, struct slice_mut_u8 area, uint64_t groups,
        uint64_t start, uint64_t slot, uint64_t offset, uint64_t home)
{
    uint64_t t9;
    (void)start;

    t9 = log_replay__places__slot_after(slot, offset / 7u, groups);
    base_areas__groups__copy_entry(area, 64u * home, log, t9, offset % 7u);
}

/* Copies to each home that one word marks, whose first home is `base`, the block of its newest entry. */
static inline void log_replay__restore__restore_word(struct slice_u8 log, struct slice_mut_u8 area, struct slice_u16 table,
        uint64_t groups, uint64_t start, uint64_t slot, uint64_t word, uint64_t base)
{
    uint64_t t9, t10;

    t9 = word;
    while (t9 != 0u) {
        t10 = (uint64_t)trailing_zeros(t9);
        log_replay__places__restore_block(log, area, groups, start, slot, (uint64_t)table.ptr[(size_t)t10] - 1u, base + t10);
        t9 = t9 & (t9 - 1u);
    }
}

/* Appends the write of the block that the data area holds in a home. [S-5] */
static inline uint64_t base_batch__records__home_write(struct slice_mut_u8 batch, uint64_t at, uint64_t home,
        struct slice_u8 area)
{
    base_codec__marks__put_home_write_mark(batch, at);
    store_2(batch.ptr + (size_t)(at + 2u), home);
    base_areas__blocks__copy_block(batch, at + 4u, area, 64u * home);
    return at + 68u;
}

/* Writes the records of the homes that one word marks, whose first home is `base`, rising, and returns the index past them. */
static inline uint64_t base_batch__marked__emit_word(struct slice_mut_u8 batch, uint64_t at, uint64_t word, uint64_t base,
        struct slice_u8 area)
{
    uint64_t t6, t7;

    t6 = at;
    t7 = word;
    while (t7 != 0u) {
        t6 = base_batch__records__home_write(batch, t6, base + (uint64_t)trailing_zeros(t7), area);
        t7 = t7 & (t7 - 1u);
    }
    return t6;
}

/* Brings the touched homes of word `w` back into the data copy, and writes their records at an index of the batch; returns the
   index past them. */
static inline uint64_t log_replay__restore__bring_chain(struct slice_u8 log, struct slice_mut_u8 area, struct slice_mut_u8 batch,
        uint64_t at, struct slice_u16 last, struct slice_u16 heads, struct slice_u16 links, uint64_t w, uint64_t groups,
        uint64_t homes, uint64_t start, uint64_t end, uint64_t slot)
{
    struct array_u16_64 t14;
    uint64_t t15;

    memset(&t14, 0, sizeof t14);
    t15 = log_replay__words__newest_in(log, last, heads, links, (struct slice_mut_u16){t14.at, 64u}, w, groups, homes, start, end,
            slot);
    log_replay__restore__restore_word(log, area, (struct slice_u16){t14.at, 64u}, groups, start, slot, t15, 64u * w);
    return base_batch__marked__emit_word(batch, at, t15, 64u * w, (struct slice_u8){area.ptr, area.len});
}

/* The same, at once where the word has no entry. */
static inline uint64_t log_replay__restore__bring_word(struct slice_u8 log, struct slice_mut_u8 area, struct slice_mut_u8 batch,
        uint64_t at, struct slice_u16 last, struct slice_u16 heads, struct slice_u16 links, uint64_t w, uint64_t groups,
        uint64_t homes, uint64_t start, uint64_t end, uint64_t slot)
{
    if (heads.ptr[(size_t)w] == 0u) {
        return at;
    }
    return log_replay__restore__bring_chain(log, area, batch, at, last, heads, links, w, groups, homes, start, end, slot);
}

/* Replays the transactions that close below `end` into the data copy, and writes the records of the homes that they touch at the
   batch's beginning. */
static inline uint64_t log_replay__restore__bring_back(struct slice_u8 log, struct slice_mut_u8 area, struct slice_mut_u8 batch,
        struct slice_u16 last, struct slice_u16 heads, struct slice_u16 links, uint64_t groups, uint64_t homes, uint64_t start,
        uint64_t end)
{
    uint64_t t11, t12, t13, t14;
    struct log_scan__slots__RingSlot t15;

    t15 = log_scan__slots__first_slot(start, groups);
    t11 = t15.slot;
    t12 = (homes + 63u) / 64u;
    t13 = 0u;
    t14 = 0u;
    while (t14 < t12) {
        t13 = log_replay__restore__bring_word(log, area, batch, t13, last, heads, links, t14, groups, homes, start, end, t11);
        t14 = t14 + 1u;
    }
    return t13;
}

/* Returns how many bytes the records of the homes that the transactions of all closing entries below `end` touch take, and
   `more`. If the batch has them, those transactions are replayed into the data copy, and the homes' records stand at the batch's
   beginning; else nothing is changed. The homes are counted first only where the batch may have no room: not for all homes, nor
   for as many as there can be entries. */
static inline uint64_t log_tables__whole__bring_all(struct slice_u8 log, struct slice_mut_u8 area, struct slice_mut_u8 batch,
        struct slice_u16 last, struct slice_u16 heads, struct slice_u16 links, uint64_t groups, uint64_t homes, uint64_t start,
        uint64_t end, uint64_t more)
{
    uint64_t t12, t13, t14, t16, t21;

    t12 = (uint64_t)batch.len;
    t16 = log_tables__whole__least(homes, 7u * groups);
    if (t12 < ((68u * t16) + more)) {
        t21 = log_replay__words__count(log, last, heads, links, groups, homes, start, end);
        t13 = (68u * t21) + more;
        if (t12 < t13) {
            return t13;
        }
    }
    t14 = log_replay__restore__bring_back(log, area, batch, last, heads, links, groups, homes, start, end);
    return t14 + more;
}

/* Finds what is committed among the `n` positions from the start on, and brings it back: all homes where `limit` is 0, else at
   most `limit` from the cursor on. For a log of up to 64 groups. */
static APART struct log_tables__tables__Replay log_tables__tables__bring_small_0(struct slice_u8 log, struct slice_mut_u8 area,
        struct slice_mut_u8 batch, uint64_t groups, uint64_t homes, uint64_t start, uint64_t n, uint64_t cursor, uint64_t more)
{
    struct array_u16_448 t11, t13;
    struct array_u16_1024 t12;
    struct log_scan__commits__Progress t14;
    uint64_t t15, t16;

    memset(&t11, 0, sizeof t11);
    memset(&t12, 0, sizeof t12);
    memset(&t13, 0, sizeof t13);
    t14 = log_gather__walking__walk(log, (struct slice_mut_u16){t11.at, 448u}, (struct slice_mut_u16){t12.at, 1024u},
            (struct slice_mut_u16){t13.at, 448u}, groups, homes, start, n);
    if (t14.failed == 2u) {
        t14 = log_gather__twice__walk_twice(log, (struct slice_mut_u16){t11.at, 448u}, (struct slice_mut_u16){t12.at, 1024u},
                (struct slice_mut_u16){t13.at, 448u}, groups, homes, start, n);
    }
    t15 = t14.end;
    t16 = log_tables__whole__bring_all(log, area, batch, (struct slice_u16){t11.at, 448u}, (struct slice_u16){t12.at, 1024u},
            (struct slice_u16){t13.at, 448u}, groups, homes, start, t15, more);
    return (struct log_tables__tables__Replay){.end = t15, .number = t14.number, .size = t16, .next = cursor, .more = false};
}

/* The same for any log. Both serve two calls each, and so stay functions of their own: a small log never takes the large tables.
   */
static APART struct log_tables__tables__Replay log_tables__tables__bring_large_0(struct slice_u8 log, struct slice_mut_u8 area,
        struct slice_mut_u8 batch, uint64_t groups, uint64_t homes, uint64_t start, uint64_t n, uint64_t cursor, uint64_t more)
{
    struct array_u16_7168 t11, t13;
    struct array_u16_1024 t12;
    struct log_scan__commits__Progress t14;
    uint64_t t15, t16;

    memset(&t11, 0, sizeof t11);
    memset(&t12, 0, sizeof t12);
    memset(&t13, 0, sizeof t13);
    t14 = log_gather__walking__walk(log, (struct slice_mut_u16){t11.at, 7168u}, (struct slice_mut_u16){t12.at, 1024u},
            (struct slice_mut_u16){t13.at, 7168u}, groups, homes, start, n);
    if (t14.failed == 2u) {
        t14 = log_gather__twice__walk_twice(log, (struct slice_mut_u16){t11.at, 7168u}, (struct slice_mut_u16){t12.at, 1024u},
                (struct slice_mut_u16){t13.at, 7168u}, groups, homes, start, n);
    }
    t15 = t14.end;
    t16 = log_tables__whole__bring_all(log, area, batch, (struct slice_u16){t11.at, 7168u}, (struct slice_u16){t12.at, 1024u},
            (struct slice_u16){t13.at, 7168u}, groups, homes, start, t15, more);
    return (struct log_tables__tables__Replay){.end = t15, .number = t14.number, .size = t16, .next = cursor, .more = false};
}

/* Replay of all homes, for settle and open, by the committed transactions among the `n` positions from the start on. */
static inline struct log_tables__tables__Replay log_tables__planning__bring_back(struct slice_u8 log, struct slice_mut_u8 area,
        struct slice_mut_u8 batch, uint64_t groups, uint64_t homes, uint64_t start, uint64_t n, uint64_t more)
{
    if (groups <= 64u) {
        return log_tables__tables__bring_small_0(log, area, batch, groups, homes, start, n, 0u, more);
    }
    return log_tables__tables__bring_large_0(log, area, batch, groups, homes, start, n, 0u, more);
}

/* Writes a fence, the header with a new start, another fence, all groups as unused, and a last fence at an index of the batch. */
static inline void call_open__opening__open_records(struct slice_mut_u8 batch, uint64_t at, uint64_t start, uint64_t groups,
        uint64_t homes)
{
    uint64_t t6;

    t6 = base_batch__records__fence(batch, at);
    t6 = base_batch__records__header_write(batch, t6, start, groups, homes);
    t6 = base_batch__records__fence(batch, t6);
    t6 = base_batch__format__all_groups(batch, t6, start, groups);
    (void)base_batch__records__fence(batch, t6);
}

/* The sign of the list of rights in the data copy. */
static inline uint64_t call_open__opening__open_sign(struct slice_u8 area, uint64_t homes)
{
    bool t4;

    if (homes < 12u) {
        return 0u;
    }
    t4 = base_codec__blocks__all_zero(area, 512u, 256u);
    if (t4) {
        return 1u;
    }
    return 2u;
}

/* Makes every byte of the strip zero. */
static inline void base_state__fields__clear(struct slice_mut_u8 s)
{
    base_codec__blocks__clear(s, 0u, 1024u);
}

/* Makes `s` the numbers of an opened store whose log is empty at the group number `start`, and else zeros. */
static inline void base_state__fields__fresh_numbers(struct slice_mut_u8 s, uint64_t groups, uint64_t homes, uint64_t start)
{
    uint64_t t5;

    base_state__fields__clear(s);
    store_8(s.ptr, groups);
    store_8(s.ptr + 8u, homes);
    store_8(s.ptr + 16u, start);
    store_8(s.ptr + 24u, start);
    t5 = 7u * start;
    store_8(s.ptr + 40u, t5);
    store_8(s.ptr + 48u, t5);
    store_8(s.ptr + 56u, t5);
}

/* Makes `s` the strip of an opened store whose log is empty at the group number `start`: no position of the list of rights is
   kept, and `sign` is its sign. */
static inline void base_state__fields__fresh(struct slice_mut_u8 s, uint64_t groups, uint64_t homes, uint64_t start,
        uint64_t sign)
{
    struct array_u8_32 t6;

    memset(&t6, 255u, sizeof t6);
    base_state__fields__fresh_numbers(s, groups, homes, start);
    base_state__listed__set_listed(s, (struct slice_u8){t6.at, 32u});
    store_8(s.ptr + 928u, sign);
}

/* Keeps no position for any home. */
static inline void log_newest__positions__keep_nothing(struct slice_mut_u8 newest, uint64_t homes)
{
    uint64_t t3, t4;
    (void)homes;

    t3 = 0u;
    t4 = (uint64_t)newest.len;
    while (0u < t4) {
        newest.ptr[(size_t)t3] = 255u;
        t3 = t3 + 1u;
        t4 = t4 - 1u;
    }
}

/* Makes the log copy empty from a new start on, the strip that of an empty log, and keeps no position. */
static inline void call_open__opening__open_copies(struct slice_mut_u8 log, struct slice_u8 area, struct slice_mut_u8 state,
        struct slice_mut_u8 newest, uint64_t groups, uint64_t homes, uint64_t start)
{
    uint64_t t13;

    base_areas__unused__put_empty_log(log, start, groups, homes);
    t13 = call_open__opening__open_sign(area, homes);
    base_state__fields__fresh(state, groups, homes, start, t13);
    log_newest__positions__keep_nothing(newest, homes);
}

/* Brings the committed transactions back, and empties the log; returns how many they are. */
static inline struct call_ask__Reply call_open__opening__reopen(struct slice_mut_u8 log, struct slice_mut_u8 area,
        struct slice_mut_u8 state, struct slice_mut_u8 newest, struct slice_mut_u8 batch)
{
    uint64_t t6, t8, t9, t10, t11, t13;
    struct call_open__opening__Shape t7;
    struct log_tables__tables__Replay t12;

    t6 = call_open__opening__open_answer((struct slice_u8){log.ptr, log.len}, (struct slice_u8){area.ptr, area.len},
            (struct slice_u8){state.ptr, state.len}, (struct slice_u8){newest.ptr, newest.len});
    if (t6 != 0u) {
        return (struct call_ask__Reply){.code = t6, .figure = 0u, .size = 0u};
    }
    t7 = call_open__opening__measure((struct slice_u8){log.ptr, log.len}, (struct slice_u8){area.ptr, area.len});
    t8 = t7.groups;
    t9 = t7.homes;
    t10 = t7.start;
    t11 = 72u + (516u * t8);
    t12 = log_tables__planning__bring_back((struct slice_u8){log.ptr, log.len}, area, batch, t8, t9, t10, 7u * t8, t11);
    t13 = t12.size;
    if ((uint64_t)batch.len < t13) {
        return (struct call_ask__Reply){.code = 9u, .figure = 0u, .size = 0u};
    }
    call_open__opening__open_records(batch, t13 - t11, t10 + t8, t8, t9);
    call_open__opening__open_copies(log, (struct slice_u8){area.ptr, area.len}, state, newest, t8, t9, t10 + t8);
    return (struct call_ask__Reply){.code = 0u, .figure = t12.number, .size = t13};
}

/* Brings back what a power cut left: replays the committed transactions into the data copy and starts the log anew. [S-7, S-9,
   S-24, S-26] */
static inline struct call_ask__Reply kagutin__kagutin_open(struct slice_mut_u8 log, struct slice_mut_u8 area,
        struct slice_mut_u8 state, struct slice_mut_u8 newest, struct slice_mut_u8 batch)
{
    return call_open__opening__reopen(log, area, state, newest, batch);
}

/* The same for a call that is lent a block. */
static inline uint64_t call_ask__block_answer(struct slice_u8 log, struct slice_u8 area, struct slice_u8 state,
        struct slice_u8 block)
{
    uint64_t t5;
    bool t7, t8;

    t7 = call_ask__lengths_right(log, area, state);
    if (!t7) {
        return 1u;
    }
    if ((uint64_t)block.len != 64u) {
        return 1u;
    }
    t5 = base_areas__lengths__log_groups((uint64_t)log.len);
    t8 = base_order__whole__whole_in_order(state, t5, (uint64_t)area.len / 64u);
    if (!t8) {
        return 2u;
    }
    return 0u;
}

/* The same for a call that is lent a block too. */
static inline uint64_t call_ask__both_answer(struct slice_u8 log, struct slice_u8 area, struct slice_u8 state,
        struct slice_u8 newest, struct slice_u8 block)
{
    if ((uint64_t)newest.len != (8u * ((uint64_t)area.len / 64u))) {
        return 1u;
    }
    return call_ask__block_answer(log, area, state, block);
}

/* The questions of a read: 0 if none refuses it, else the number of the refusal. */
static inline uint64_t call_read__read_answer(struct slice_u8 log, struct slice_u8 area, struct slice_u8 state,
        struct slice_u8 newest, struct slice_u8 block, uint64_t writer, uint64_t home)
{
    uint64_t t8;
    bool t9;

    t8 = call_ask__both_answer(log, area, state, newest, block);
    if (t8 != 0u) {
        return t8;
    }
    if (8u <= writer) {
        return 4u;
    }
    if (((uint64_t)area.len / 64u) <= home) {
        return 5u;
    }
    t9 = call_rights__may_read(log, area, state, newest, writer, home);
    if (!t9) {
        return 20u;
    }
    return 0u;
}

/* Reads the block of a home as a writer sees it: the held one, else its newest own entry, else that at the position kept for the
   home, else the data copy. */
static inline struct call_ask__Reply call_read__read(struct slice_u8 log, struct slice_u8 area, struct slice_u8 state,
        struct slice_u8 newest, struct slice_mut_u8 block, uint64_t writer, uint64_t home)
{
    uint64_t t8;

    t8 = call_read__read_answer(log, area, state, newest, (struct slice_u8){block.ptr, block.len}, writer, home);
    if (t8 != 0u) {
        return (struct call_ask__Reply){.code = t8, .figure = 0u, .size = 0u};
    }
    call_read__blocks__show(log, area, state, newest, block, writer, home);
    return (struct call_ask__Reply){.code = 0u, .figure = 0u, .size = 0u};
}

/* Reads the block of a home as a writer sees it. [S-7, S-9, S-35, S-37] */
static inline struct call_ask__Reply kagutin__kagutin_read(struct slice_u8 log, struct slice_u8 area, struct slice_u8 state,
        struct slice_u8 newest, struct slice_mut_u8 block, uint64_t writer, uint64_t home)
{
    return call_read__read(log, area, state, newest, block, writer, home);
}

/* The places that are promised to nobody. */
static inline uint64_t base_state__promises__free_places(struct slice_u8 s, struct model__State st)
{
    uint64_t t3, t4;

    t3 = (7u * (st.start + st.groups)) - ((7u * st.next) + st.filled);
    t4 = base_state__promises__promised(s);
    if (t3 < t4) {
        return 0u;
    }
    return t3 - t4;
}

/* Whether `n` places may be promised: at least one, and no more than are free. */
static inline bool base_state__promises__may_promise(struct slice_u8 s, struct model__State st, uint64_t n)
{
    uint64_t t5;

    if (n == 0u) {
        return false;
    }
    t5 = base_state__promises__free_places(s, st);
    return n <= t5;
}

/* Whether a writer may begin with `n` places promised to it: 0, or the number of the refusal. */
static inline uint64_t call_writer__reserve_answer(struct slice_u8 log, struct slice_u8 area, struct slice_u8 state,
        uint64_t writer, uint64_t n)
{
    uint64_t t6, t11, t12;
    bool t7;

    t6 = call_writer__begin_answer(log, area, state, writer);
    if (t6 != 0u) {
        return t6;
    }
    t11 = load_8(state.ptr);
    t12 = load_8(state.ptr + 8u);
    t7 = base_state__promises__may_promise(state, (struct model__State){.groups = t11, .homes = t12, .start = load_8(state.ptr
            + 16u), .next = load_8(state.ptr + 24u), .filled = load_8(state.ptr + 32u), .settled = load_8(state.ptr + 40u),
            .fenced = load_8(state.ptr + 48u), .durable = load_8(state.ptr + 56u), .last = load_8(state.ptr + 64u),
            .round = load_8(state.ptr + 88u), .cursor = load_8(state.ptr + 96u)}, n);
    if (!t7) {
        return 17u;
    }
    return 0u;
}

/* Begins a transaction of a writer that has none open, and promises it `n` places: its first `n` entries find room. */
static inline struct call_ask__Reply call_writer__reserve(struct slice_u8 log, struct slice_u8 area, struct slice_mut_u8 state,
        uint64_t writer, uint64_t n)
{
    uint64_t t6;

    t6 = call_writer__reserve_answer(log, area, (struct slice_u8){state.ptr, state.len}, writer, n);
    if (t6 != 0u) {
        return (struct call_ask__Reply){.code = t6, .figure = 0u, .size = 0u};
    }
    base_writers__begin(state, writer);
    store_2(state.ptr + (size_t)(72u + (2u * writer)), n);
    return (struct call_ask__Reply){.code = 0u, .figure = 0u, .size = 0u};
}

/* Begins a transaction of a writer that has none open, and promises it `n` places: its first `n` entries find room. [S-7, S-9,
   S-43] */
static inline struct call_ask__Reply kagutin__kagutin_reserve(struct slice_u8 log, struct slice_u8 area,
        struct slice_mut_u8 state, uint64_t writer, uint64_t n)
{
    return call_writer__reserve(log, area, state, writer, n);
}

/* Whether a writer may store to a home, for a call that is lent the newest positions: the list is found by those. */
static inline bool call_rights__may_store_newest(struct slice_u8 log, struct slice_u8 area, struct slice_u8 state,
        struct slice_u8 newest, uint64_t writer, uint64_t home)
{
    uint64_t t7, t8;
    bool t9;

    t9 = call_rights__ranges__of_list(home);
    if (t9) {
        return writer == 0u;
    }
    if ((uint64_t)area.len < 768u) {
        return true;
    }
    t7 = 32u * writer;
    t8 = load_8(state.ptr + 928u);
    if (t8 == 1u) {
        return true;
    }
    if (t8 == 2u) {
        return call_rights__list__open_listed(log, area, state, newest, 64u, t7, home);
    }
    return call_rights__list__open_unsigned(log, area, state, newest, 64u, t7, home);
}

/* Whether a writer may store to each of `n` homes from `home` on. */
static inline bool call_many_fetch__allowed__may_store_all(struct slice_u8 log, struct slice_u8 area, struct slice_u8 state,
        struct slice_u8 newest, uint64_t writer, uint64_t home, uint64_t n)
{
    uint64_t t8;
    bool t9;

    t8 = 0u;
    while (t8 < n) {
        t9 = call_rights__may_store_newest(log, area, state, newest, writer, home + t8);
        if (!t9) {
            return false;
        }
        t8 = t8 + 1u;
    }
    return true;
}

/* The answer of a revise: that of a fetch, which asks for the right to store too. */
static inline uint64_t call_many_fetch__questions__revise_answer(struct slice_u8 log, struct slice_u8 area, struct slice_u8 state,
        struct slice_u8 newest, struct slice_u8 blocks, uint64_t writer, uint64_t home)
{
    uint64_t t8, t9;
    bool t10;

    t8 = call_many_fetch__questions__homes_answer(log, area, state, newest, blocks, writer, home);
    if (t8 != 0u) {
        return t8;
    }
    t9 = (uint64_t)blocks.len / 64u;
    t10 = call_many_fetch__allowed__may_store_all(log, area, state, newest, writer, home, t9);
    if (!t10) {
        return 19u;
    }
    t10 = call_many_fetch__allowed__may_read_all(log, area, state, newest, writer, home, t9);
    if (!t10) {
        return 20u;
    }
    return 0u;
}

/* The same for a writer that is going to store what it makes of them: it may store to them all, too. */
static inline struct call_ask__Reply call_many_fetch__fetches__revise(struct slice_u8 log, struct slice_u8 area,
        struct slice_u8 state, struct slice_u8 newest, struct slice_mut_u8 blocks, uint64_t writer, uint64_t home)
{
    uint64_t t8;

    t8 = call_many_fetch__questions__revise_answer(log, area, state, newest, (struct slice_u8){blocks.ptr, blocks.len}, writer,
            home);
    if (t8 != 0u) {
        return (struct call_ask__Reply){.code = t8, .figure = 0u, .size = 0u};
    }
    call_many_fetch__fetches__show_all(log, area, state, newest, blocks, writer, home);
    return (struct call_ask__Reply){.code = 0u, .figure = 0u, .size = 0u};
}

/* The same for a writer that is going to store what it makes of the blocks: it may store to the homes, too. [S-7, S-9, S-62] */
static inline struct call_ask__Reply kagutin__kagutin_revise(struct slice_u8 log, struct slice_u8 area, struct slice_u8 state,
        struct slice_u8 newest, struct slice_mut_u8 blocks, uint64_t writer, uint64_t home)
{
    return call_many_fetch__fetches__revise(log, area, state, newest, blocks, writer, home);
}

/* Brings the data copy and the data area up to the fenced position. */
static inline struct call_ask__Reply call_settle__settling__settle(struct slice_u8 log, struct slice_mut_u8 area,
        struct slice_mut_u8 state, struct slice_mut_u8 batch)
{
    uint64_t t5, t8, t22, t32, t33;
    struct model__State t6;
    struct log_tables__tables__Replay t17;

    t5 = call_ask__state_answer(log, (struct slice_u8){area.ptr, area.len}, (struct slice_u8){state.ptr, state.len});
    if (t5 != 0u) {
        return (struct call_ask__Reply){.code = t5, .figure = 0u, .size = 0u};
    }
    t32 = load_8(state.ptr);
    t33 = load_8(state.ptr + 8u);
    t6 = (struct model__State){.groups = t32, .homes = t33, .start = load_8(state.ptr + 16u), .next = load_8(state.ptr + 24u),
            .filled = load_8(state.ptr + 32u), .settled = load_8(state.ptr + 40u), .fenced = load_8(state.ptr + 48u),
            .durable = load_8(state.ptr + 56u), .last = load_8(state.ptr + 64u), .round = load_8(state.ptr + 88u),
            .cursor = load_8(state.ptr + 96u)};
    if (t6.round != 0u) {
        return (struct call_ask__Reply){.code = 21u, .figure = 0u, .size = 0u};
    }
    t17 = log_tables__planning__bring_back(log, area, batch, t6.groups, t6.homes, t6.start, t6.fenced - (7u * t6.start), 2u);
    t8 = t17.size;
    t22 = (uint64_t)batch.len;
    if (t22 < t8) {
        return (struct call_ask__Reply){.code = 9u, .figure = 0u, .size = 0u};
    }
    t22 = base_batch__records__fence(batch, t8 - 2u);
    store_8(state.ptr + 40u, t6.fenced);
    store_8(state.ptr + 48u, 7u * t6.next);
    return (struct call_ask__Reply){.code = 0u, .figure = 0u, .size = t8};
}

/* Writes the homes of the commits below the fenced position, and a fence. [S-7, S-9, S-38] */
static inline struct call_ask__Reply kagutin__kagutin_settle(struct slice_u8 log, struct slice_mut_u8 area,
        struct slice_mut_u8 state, struct slice_mut_u8 batch)
{
    return call_settle__settling__settle(log, area, state, batch);
}

/* The end of the homes of the word that a home is in, or of all homes. */
static inline uint64_t log_replay__stepping__word_end(uint64_t home, uint64_t homes)
{
    uint64_t t3, t7;

    t3 = (64u * (home / 64u)) + 64u;
    if (t3 < homes) {
        t7 = t3;
    } else {
        t7 = homes;
    }
    return t7;
}

/* 1 if a code of the table says that its home has a newest entry, 0 if not. */
static inline uint64_t log_replay__stepping__one_if(uint16_t code)
{
    uint64_t t3;

    if (code == 0u) {
        t3 = 0u;
    } else {
        t3 = 1u;
    }
    return t3;
}

/* How many of the homes from `from` to below `upto`, all of word `w`, are touched, by the table of the word's newest entries. */
static inline uint64_t log_replay__stepping__codes_left(struct slice_u16 table, uint64_t w, uint64_t from, uint64_t upto)
{
    uint64_t t5, t6, t7, t10;

    t5 = 64u * w;
    t6 = 0u;
    t7 = from;
    while (t7 < upto) {
        t10 = log_replay__stepping__one_if(table.ptr[(size_t)(t7 - t5)]);
        t6 = t6 + t10;
        t7 = t7 + 1u;
    }
    return t6;
}

/* How many of the homes from `from` to below `upto`, all of word `w`, are touched. */
static inline uint64_t log_replay__stepping__count_part(struct slice_u8 log, struct slice_u16 last, struct slice_u16 heads,
        struct slice_u16 links, uint64_t w, uint64_t from, uint64_t upto, uint64_t groups, uint64_t homes, uint64_t start,
        uint64_t end, uint64_t slot)
{
    struct array_u16_64 t13;

    if (heads.ptr[(size_t)w] == 0u) {
        return 0u;
    }
    memset(&t13, 0, sizeof t13);
    (void)log_replay__words__newest_in(log, last, heads, links, (struct slice_mut_u16){t13.at, 64u}, w, groups, homes, start, end,
            slot);
    return log_replay__stepping__codes_left((struct slice_u16){t13.at, 64u}, w, from, upto);
}

/* How many homes from the cursor on the transactions of all closing entries below `end` touch, if they are at most `limit`; else
   more than that. */
static inline uint64_t log_replay__stepping__count_from(struct slice_u8 log, struct slice_u16 last, struct slice_u16 heads,
        struct slice_u16 links, uint64_t groups, uint64_t homes, uint64_t start, uint64_t end, uint64_t cursor, uint64_t limit)
{
    uint64_t t11, t12, t13, t14, t17;
    struct log_scan__slots__RingSlot t15;

    t15 = log_scan__slots__first_slot(start, groups);
    t11 = t15.slot;
    t12 = 0u;
    t13 = cursor;
    while (t13 < homes) {
        if (limit < t12) {
            return t12;
        }
        t14 = log_replay__stepping__word_end(t13, homes);
        t17 = log_replay__stepping__count_part(log, last, heads, links, t13 / 64u, t13, t14, groups, homes, start, end, t11);
        t12 = t12 + t17;
        t13 = t14;
    }
    return t12;
}

/* Brings a home back whose newest entry is said by a code of the table, and writes its record as the one after `done` others;
   returns how many it then are. A code of 0 leaves all as it is. */
static inline uint64_t log_replay__stepping__bring_home(struct slice_u8 log, struct slice_mut_u8 area, struct slice_mut_u8 batch,
        uint16_t code, uint64_t groups, uint64_t start, uint64_t slot, uint64_t home, uint64_t done)
{
    if (code == 0u) {
        return done;
    }
    log_replay__places__restore_block(log, area, groups, start, slot, (uint64_t)code - 1u, home);
    (void)base_batch__records__home_write(batch, 68u * done, home, (struct slice_u8){area.ptr, area.len});
    return done + 1u;
}

/* Brings the touched homes from `from` to below `upto` back, all of word `w`, until `limit` are done in all, and counts those
   that are left of them. A whole word that cannot reach the limit is brought back as settle does it. */
static inline struct log_replay__stepping__Reached log_replay__stepping__bring_part_of(struct slice_u8 log,
        struct slice_mut_u8 area, struct slice_mut_u8 batch, struct slice_u16 last, struct slice_u16 heads,
        struct slice_u16 links, uint64_t w, uint64_t from, uint64_t upto, uint64_t groups, uint64_t homes, uint64_t start,
        uint64_t end, uint64_t slot, uint64_t done, uint64_t limit)
{
    uint64_t t17, t19, t20, t21, t22, t39;
    struct array_u16_64 t18;

    if ((upto - from) == 64u) {
        if (64u < (limit - done)) {
            t17 = log_replay__restore__bring_chain(log, area, batch, 68u * done, last, heads, links, w, groups, homes, start, end,
                    slot);
            return (struct log_replay__stepping__Reached){.home = upto, .done = t17 / 68u, .rest = 0u};
        }
    }
    memset(&t18, 0, sizeof t18);
    t19 = log_replay__words__newest_in(log, last, heads, links, (struct slice_mut_u16){t18.at, 64u}, w, groups, homes, start, end,
            slot);
    if (t19 == 0u) {
        return (struct log_replay__stepping__Reached){.home = upto, .done = done, .rest = 0u};
    }
    t20 = 64u * w;
    t21 = done;
    t22 = from;
    while (t22 < upto) {
        if (t21 == limit) {
            t39 = log_replay__stepping__codes_left((struct slice_u16){t18.at, 64u}, w, t22, upto);
            return (struct log_replay__stepping__Reached){.home = t22, .done = t21, .rest = t39};
        }
        t21 = log_replay__stepping__bring_home(log, area, batch, t18.at[(size_t)(t22 - t20)], groups, start, slot, t22, t21);
        t22 = t22 + 1u;
    }
    return (struct log_replay__stepping__Reached){.home = t22, .done = t21, .rest = 0u};
}

/* The same, at once where the word has no entry. */
static inline struct log_replay__stepping__Reached log_replay__stepping__bring_part(struct slice_u8 log, struct slice_mut_u8 area,
        struct slice_mut_u8 batch, struct slice_u16 last, struct slice_u16 heads, struct slice_u16 links, uint64_t w,
        uint64_t from, uint64_t upto, uint64_t groups, uint64_t homes, uint64_t start, uint64_t end, uint64_t slot, uint64_t done,
        uint64_t limit)
{
    if (heads.ptr[(size_t)w] == 0u) {
        return (struct log_replay__stepping__Reached){.home = upto, .done = done, .rest = 0u};
    }
    return log_replay__stepping__bring_part_of(log, area, batch, last, heads, links, w, from, upto, groups, homes, start, end,
            slot, done, limit);
}

/* Brings the first `limit` touched homes from the cursor on back into the data copy, or all of them, and writes their records at
   the batch's beginning; says where it has come, and whether touched homes are left. Each word's chain is gone along once. */
static inline struct log_replay__stepping__Reached log_replay__stepping__bring_from(struct slice_u8 log, struct slice_mut_u8 area,
        struct slice_mut_u8 batch, struct slice_u16 last, struct slice_u16 heads, struct slice_u16 links, uint64_t groups,
        uint64_t homes, uint64_t start, uint64_t end, uint64_t cursor, uint64_t limit)
{
    uint64_t t13, t14, t15, t16, t19, t29;
    struct log_replay__stepping__Reached t17;
    struct log_scan__slots__RingSlot t20;

    if (limit == 0u) {
        t19 = log_replay__stepping__count_from(log, last, heads, links, groups, homes, start, end, cursor, 0u);
        return (struct log_replay__stepping__Reached){.home = cursor, .done = 0u, .rest = t19};
    }
    t20 = log_scan__slots__first_slot(start, groups);
    t13 = t20.slot;
    t14 = 0u;
    t15 = cursor;
    while (t15 < homes) {
        t16 = log_replay__stepping__word_end(t15, homes);
        t17 = log_replay__stepping__bring_part(log, area, batch, last, heads, links, t15 / 64u, t15, t16, groups, homes, start,
                end, t13, t14, limit);
        if (t17.done == limit) {
            if (t17.rest != 0u) {
                return t17;
            }
            t29 = log_replay__stepping__count_from(log, last, heads, links, groups, homes, start, end, t16, 0u);
            return (struct log_replay__stepping__Reached){.home = t17.home, .done = limit, .rest = t29};
        }
        t14 = t17.done;
        t15 = t16;
    }
    return (struct log_replay__stepping__Reached){.home = t15, .done = t14, .rest = 0u};
}

/* The bytes of the last step's fence, if the homes found are within the limit. */
static inline uint64_t log_tables__steps__fence_size(uint64_t found, uint64_t limit)
{
    uint64_t t4;

    if (limit < found) {
        t4 = 0u;
    } else {
        t4 = 2u;
    }
    return t4;
}

/* Finds the bytes that a step of at most `limit` homes from the cursor on takes. If the batch has them, those homes are brought
   back into the data copy, and their records stand at the batch's beginning. The homes are counted first only where the batch may
   have no room for the most that can come. */
static inline struct log_tables__steps__Made log_tables__steps__bring_some(struct slice_u8 log, struct slice_mut_u8 area,
        struct slice_mut_u8 batch, struct slice_u16 last, struct slice_u16 heads, struct slice_u16 links, uint64_t groups,
        uint64_t homes, uint64_t start, uint64_t end, uint64_t cursor, uint64_t limit)
{
    uint64_t t13, t14, t16, t17, t18, t19, t24, t31;
    struct log_replay__stepping__Reached t15, t21;
    bool t20;

    t13 = (uint64_t)batch.len;
    t14 = log_tables__whole__least(limit, homes);
    if (((68u * t14) + 2u) <= t13) {
        t15 = log_replay__stepping__bring_from(log, area, batch, last, heads, links, groups, homes, start, end, cursor, t14);
        t16 = t15.done + t15.rest;
        t31 = log_tables__steps__fence_size(t16, limit);
        return (struct log_tables__steps__Made){.size = (68u * t15.done) + t31, .next = t15.home, .more = limit < t16};
    }
    t17 = log_replay__stepping__count_from(log, last, heads, links, groups, homes, start, end, cursor, limit);
    t18 = log_tables__whole__least(t17, limit);
    t24 = log_tables__steps__fence_size(t17, limit);
    t19 = (68u * t18) + t24;
    t20 = limit < t17;
    if (t13 < t19) {
        return (struct log_tables__steps__Made){.size = t19, .next = cursor, .more = t20};
    }
    t21 = log_replay__stepping__bring_from(log, area, batch, last, heads, links, groups, homes, start, end, cursor, t18);
    return (struct log_tables__steps__Made){.size = t19, .next = t21.home, .more = t20};
}

/* Finds what is committed among the `n` positions from the start on, and brings it back: all homes where `limit` is 0, else at
   most `limit` from the cursor on. For a log of up to 64 groups. */
static APART struct log_tables__tables__Replay log_tables__tables__bring_small(struct slice_u8 log, struct slice_mut_u8 area,
        struct slice_mut_u8 batch, uint64_t groups, uint64_t homes, uint64_t start, uint64_t n, uint64_t cursor, uint64_t limit,
        uint64_t more)
{
    struct array_u16_448 t11, t13;
    struct array_u16_1024 t12;
    struct log_scan__commits__Progress t14;
    uint64_t t15, t16;
    struct log_tables__steps__Made t17;

    memset(&t11, 0, sizeof t11);
    memset(&t12, 0, sizeof t12);
    memset(&t13, 0, sizeof t13);
    t14 = log_gather__walking__walk(log, (struct slice_mut_u16){t11.at, 448u}, (struct slice_mut_u16){t12.at, 1024u},
            (struct slice_mut_u16){t13.at, 448u}, groups, homes, start, n);
    if (t14.failed == 2u) {
        t14 = log_gather__twice__walk_twice(log, (struct slice_mut_u16){t11.at, 448u}, (struct slice_mut_u16){t12.at, 1024u},
                (struct slice_mut_u16){t13.at, 448u}, groups, homes, start, n);
    }
    t15 = t14.end;
    if (limit == 0u) {
        t16 = log_tables__whole__bring_all(log, area, batch, (struct slice_u16){t11.at, 448u}, (struct slice_u16){t12.at, 1024u},
                (struct slice_u16){t13.at, 448u}, groups, homes, start, t15, more);
        return (struct log_tables__tables__Replay){.end = t15, .number = t14.number, .size = t16, .next = cursor, .more = false};
    }
    t17 = log_tables__steps__bring_some(log, area, batch, (struct slice_u16){t11.at, 448u}, (struct slice_u16){t12.at, 1024u},
            (struct slice_u16){t13.at, 448u}, groups, homes, start, t15, cursor, limit);
    return (struct log_tables__tables__Replay){.end = t15, .number = t14.number, .size = t17.size, .next = t17.next,
            .more = t17.more};
}

/* The same for any log. Both serve two calls each, and so stay functions of their own: a small log never takes the large tables.
   */
static APART struct log_tables__tables__Replay log_tables__tables__bring_large(struct slice_u8 log, struct slice_mut_u8 area,
        struct slice_mut_u8 batch, uint64_t groups, uint64_t homes, uint64_t start, uint64_t n, uint64_t cursor, uint64_t limit,
        uint64_t more)
{
    struct array_u16_7168 t11, t13;
    struct array_u16_1024 t12;
    struct log_scan__commits__Progress t14;
    uint64_t t15, t16;
    struct log_tables__steps__Made t17;

    memset(&t11, 0, sizeof t11);
    memset(&t12, 0, sizeof t12);
    memset(&t13, 0, sizeof t13);
    t14 = log_gather__walking__walk(log, (struct slice_mut_u16){t11.at, 7168u}, (struct slice_mut_u16){t12.at, 1024u},
            (struct slice_mut_u16){t13.at, 7168u}, groups, homes, start, n);
    if (t14.failed == 2u) {
        t14 = log_gather__twice__walk_twice(log, (struct slice_mut_u16){t11.at, 7168u}, (struct slice_mut_u16){t12.at, 1024u},
                (struct slice_mut_u16){t13.at, 7168u}, groups, homes, start, n);
    }
    t15 = t14.end;
    if (limit == 0u) {
        t16 = log_tables__whole__bring_all(log, area, batch, (struct slice_u16){t11.at, 7168u}, (struct slice_u16){t12.at, 1024u},
                (struct slice_u16){t13.at, 7168u}, groups, homes, start, t15, more);
        return (struct log_tables__tables__Replay){.end = t15, .number = t14.number, .size = t16, .next = cursor, .more = false};
    }
    t17 = log_tables__steps__bring_some(log, area, batch, (struct slice_u16){t11.at, 7168u}, (struct slice_u16){t12.at, 1024u},
            (struct slice_u16){t13.at, 7168u}, groups, homes, start, t15, cursor, limit);
    return (struct log_tables__tables__Replay){.end = t15, .number = t14.number, .size = t17.size, .next = t17.next,
            .more = t17.more};
}

/* A step of at most `limit` homes from the cursor on, by the same. */
static inline struct log_tables__tables__Replay log_tables__planning__step(struct slice_u8 log, struct slice_mut_u8 area,
        struct slice_mut_u8 batch, uint64_t groups, uint64_t homes, uint64_t start, uint64_t n, uint64_t cursor, uint64_t limit)
{
    if (groups <= 64u) {
        return log_tables__tables__bring_small(log, area, batch, groups, homes, start, n, cursor, limit, 0u);
    }
    return log_tables__tables__bring_large(log, area, batch, groups, homes, start, n, cursor, limit, 0u);
}

/* Moves the round on by the next `homes` homes, or all that remain: then it is over. */
static inline struct call_ask__Reply call_settle__rounds__step_round(struct slice_u8 log, struct slice_mut_u8 area,
        struct slice_mut_u8 state, struct slice_mut_u8 batch, uint64_t homes)
{
    uint64_t t6, t10, t24, t37, t38;
    struct model__State t7;
    struct log_tables__tables__Replay t9;

    t6 = call_ask__state_answer(log, (struct slice_u8){area.ptr, area.len}, (struct slice_u8){state.ptr, state.len});
    if (t6 != 0u) {
        return (struct call_ask__Reply){.code = t6, .figure = 0u, .size = 0u};
    }
    t37 = load_8(state.ptr);
    t38 = load_8(state.ptr + 8u);
    t7 = (struct model__State){.groups = t37, .homes = t38, .start = load_8(state.ptr + 16u), .next = load_8(state.ptr + 24u),
            .filled = load_8(state.ptr + 32u), .settled = load_8(state.ptr + 40u), .fenced = load_8(state.ptr + 48u),
            .durable = load_8(state.ptr + 56u), .last = load_8(state.ptr + 64u), .round = load_8(state.ptr + 88u),
            .cursor = load_8(state.ptr + 96u)};
    if (t7.round == 0u) {
        return (struct call_ask__Reply){.code = 21u, .figure = 0u, .size = 0u};
    }
    if (homes == 0u) {
        return (struct call_ask__Reply){.code = 21u, .figure = 0u, .size = 0u};
    }
    t9 = log_tables__planning__step(log, area, batch, t7.groups, t7.homes, t7.start, (t7.round - 1u) - (7u * t7.start), t7.cursor,
            homes);
    t10 = t9.size;
    t24 = (uint64_t)batch.len;
    if (t24 < t10) {
        return (struct call_ask__Reply){.code = 9u, .figure = 0u, .size = 0u};
    }
    if (t9.more) {
        store_8(state.ptr + 96u, t9.next);
        return (struct call_ask__Reply){.code = 0u, .figure = 0u, .size = t10};
    }
    t24 = base_batch__records__fence(batch, t10 - 2u);
    store_8(state.ptr + 40u, t7.round - 1u);
    store_8(state.ptr + 48u, 7u * t7.next);
    store_8(state.ptr + 88u, 0u);
    store_8(state.ptr + 96u, 0u);
    return (struct call_ask__Reply){.code = 0u, .figure = 0u, .size = t10};
}

/* Writes the next `homes` homes of the round under way; with the last of them a fence, and the round is over. [S-7, S-9, S-40] */
static inline struct call_ask__Reply kagutin__kagutin_step_round(struct slice_u8 log, struct slice_mut_u8 area,
        struct slice_mut_u8 state, struct slice_mut_u8 batch, uint64_t homes)
{
    return call_settle__rounds__step_round(log, area, state, batch, homes);
}

/* Whether a writer may store to a home. The list is found by the positions of its homes in the state strip. */
static inline bool call_rights__may_store(struct slice_u8 log, struct slice_u8 area, struct slice_u8 state, uint64_t writer,
        uint64_t home)
{
    uint64_t t6, t7;
    bool t8;

    t8 = call_rights__ranges__of_list(home);
    if (t8) {
        return writer == 0u;
    }
    if ((uint64_t)area.len < 768u) {
        return true;
    }
    t6 = 32u * writer;
    t7 = load_8(state.ptr + 928u);
    if (t7 == 1u) {
        return true;
    }
    if (t7 == 2u) {
        return call_rights__list__open_listed(log, area, state, state, 896u, t6, home);
    }
    return call_rights__list__open_unsigned(log, area, state, state, 896u, t6, home);
}

/* The answer of a store: 0, or the number of the question that refuses it. */
static inline uint64_t call_store__stores__store_answer(struct slice_u8 log, struct slice_u8 area, struct slice_u8 state,
        struct slice_u8 block, struct slice_u8 batch, uint64_t writer, uint64_t home)
{
    uint64_t t8;
    struct model__Writer t9;
    bool t10;

    t8 = call_ask__block_answer(log, area, state, block);
    if (t8 != 0u) {
        return t8;
    }
    if (8u <= writer) {
        return 4u;
    }
    if (((uint64_t)area.len / 64u) <= home) {
        return 5u;
    }
    t10 = call_rights__may_store(log, area, state, writer, home);
    if (!t10) {
        return 19u;
    }
    t9 = base_state__writers__writer(state, writer);
    if (!(1u <= t9.mode)) {
        return 7u;
    }
    if (!(2u <= t9.mode)) {
        return 0u;
    }
    if (t9.home == home) {
        return 0u;
    }
    return call_store__entry__log_answer(state, writer, (uint64_t)batch.len);
}

/* The record `r` once its writer holds a block for `home`; a block that it held for another home was logged at `position`. */
static inline struct model__Writer base_writers__records__hold(struct model__Writer r, uint64_t home, uint64_t position)
{
    uint64_t t4, t7;

    if (!(2u <= r.mode)) {
        return (struct model__Writer){.mode = 2u, .home = home, .first = 0u, .count = 1u};
    }
    if (r.home == home) {
        return r;
    }
    t4 = base_state__writers__first_for(r, position);
    t7 = base_state__writers__count_for(r);
    return (struct model__Writer){.mode = 3u, .home = home, .first = t4, .count = t7 + 1u};
}

/* The record `r`, changed at its place by `hold_at`. */
static inline struct model__Writer base_writers__places__held(struct model__Writer r, uint64_t home, uint64_t position)
{
    struct model__Writer t11;

    t11 = base_writers__records__hold(r, home, position);
    return t11;
}

/* Stores what becomes of `r`, the record of writer `w`, once it holds a block for `home`; a block that it held for another home
   is logged at `position`. */
static inline void base_writers__hold(struct slice_mut_u8 s, uint64_t w, struct model__Writer r, uint64_t home, uint64_t position)
{
    struct model__Writer t9;

    t9 = base_writers__places__held(r, home, position);
    base_state__writers__set_writer(s, w, t9);
}

/* Stores `block` as the held block of writer `w`, and leaves the rest of the strip as it was. */
static inline void base_state__writers__set_held(struct slice_mut_u8 s, uint64_t w, struct slice_u8 block)
{
    base_codec__blocks__copy(s, 320u + (64u * w), block);
}

/* Holds the first block of a transaction. */
static inline void call_store__stores__store_first(struct slice_mut_u8 state, struct slice_u8 block, struct model__Writer r,
        uint64_t w, uint64_t home)
{
    base_writers__hold(state, w, r, home, 0u);
    base_state__writers__set_held(state, w, block);
}

/* How many places are promised to writer `w` once an entry of it has used one up. */
static inline uint64_t base_state__promises__promise_left(struct slice_u8 s, uint64_t w)
{
    uint64_t t3;

    t3 = load_2(s.ptr + (size_t)(72u + (2u * w)));
    if (t3 == 0u) {
        return 0u;
    }
    return t3 - 1u;
}

/* The tag of a held block that is logged at `position` and does not close its transaction. */
static inline uint64_t call_store__entry__store_word(struct model__State st, struct model__Writer r, uint64_t position)
{
    uint64_t t4;
    (void)st;

    t4 = base_state__writers__first_for(r, position);
    return ((1u | ((r.home & 4095u) << 2u)) | ((position - t4) << 14u)) | ((r.home >> 12u) << 53u);
}

/* Logs the held block and holds the next one, for another home. The record is changed first: the numbers and the block that are
   logged stay. */
static inline uint64_t call_store__stores__hold_next(struct slice_mut_u8 log, struct slice_mut_u8 state, struct slice_u8 block,
        struct slice_mut_u8 batch, struct model__State st, struct model__Writer r, uint64_t w, uint64_t home)
{
    uint64_t t9, t10, t11;

    t9 = (7u * st.next) + st.filled;
    t10 = call_store__entry__store_word(st, r, t9);
    base_writers__hold(state, w, r, home, t9);
    t11 = call_store__entry__log_entry(log, state, batch, t10, w);
    base_state__writers__set_held(state, w, (struct slice_u8){block.ptr, (size_t)((uint64_t)64u - 0u)});
    return t11;
}

/* The same, and the entry uses up one of the places promised to the writer, if any is left. */
static inline uint64_t call_store__stores__store_other(struct slice_mut_u8 log, struct slice_mut_u8 state, struct slice_u8 block,
        struct slice_mut_u8 batch, struct model__State st, struct model__Writer r, uint64_t w, uint64_t home)
{
    uint64_t t9, t10;

    t9 = base_state__promises__promise_left((struct slice_u8){state.ptr, state.len}, w);
    t10 = call_store__stores__hold_next(log, state, block, batch, st, r, w, home);
    store_2(state.ptr + (size_t)(72u + (2u * w)), t9);
    return t10;
}

/* The same by the numbers and the record that stand in the strip. */
static inline uint64_t call_store__stores__store_next(struct slice_mut_u8 log, struct slice_mut_u8 state, struct slice_u8 block,
        struct slice_mut_u8 batch, uint64_t w, uint64_t home)
{
    struct model__State t7;
    struct model__Writer t8;
    uint64_t t20, t21;

    t20 = load_8(state.ptr);
    t21 = load_8(state.ptr + 8u);
    t7 = (struct model__State){.groups = t20, .homes = t21, .start = load_8(state.ptr + 16u), .next = load_8(state.ptr + 24u),
            .filled = load_8(state.ptr + 32u), .settled = load_8(state.ptr + 40u), .fenced = load_8(state.ptr + 48u),
            .durable = load_8(state.ptr + 56u), .last = load_8(state.ptr + 64u), .round = load_8(state.ptr + 88u),
            .cursor = load_8(state.ptr + 96u)};
    t8 = base_state__writers__writer((struct slice_u8){state.ptr, state.len}, w);
    return call_store__stores__store_other(log, state, block, batch, t7, t8, w, home);
}

/* Holds a block for a home in a writer's open transaction; a block held for another home is logged first. */
static inline struct call_ask__Reply call_store__stores__store(struct slice_mut_u8 log, struct slice_u8 area,
        struct slice_mut_u8 state, struct slice_u8 block, struct slice_mut_u8 batch, uint64_t writer, uint64_t home)
{
    uint64_t t8, t9, t11;
    struct model__Writer t10;

    t8 = call_store__stores__store_answer((struct slice_u8){log.ptr, log.len}, area, (struct slice_u8){state.ptr, state.len},
            block, (struct slice_u8){batch.ptr, batch.len}, writer, home);
    if (t8 != 0u) {
        return (struct call_ask__Reply){.code = t8, .figure = 0u, .size = 0u};
    }
    t9 = writer;
    t10 = base_state__writers__writer((struct slice_u8){state.ptr, state.len}, t9);
    if (!(2u <= t10.mode)) {
        call_store__stores__store_first(state, block, t10, t9, home);
        return (struct call_ask__Reply){.code = 0u, .figure = 0u, .size = 0u};
    }
    if (t10.home == home) {
        base_state__writers__set_held(state, t9, block);
        return (struct call_ask__Reply){.code = 0u, .figure = 0u, .size = 0u};
    }
    t11 = call_store__stores__store_next(log, state, block, batch, t9, home);
    return (struct call_ask__Reply){.code = 0u, .figure = 0u, .size = t11};
}

/* Holds a block for a home in a writer's open transaction; a block held for another home is logged first. [S-7, S-9, S-29, S-30]
   */
static inline struct call_ask__Reply kagutin__kagutin_store(struct slice_mut_u8 log, struct slice_u8 area,
        struct slice_mut_u8 state, struct slice_u8 block, struct slice_mut_u8 batch, uint64_t writer, uint64_t home)
{
    return call_store__stores__store(log, area, state, block, batch, writer, home);
}

/* Questions 8 and 10 of a call that logs `n` entries of an idle writer: 0 if the log has room for them, and the batch for the
   group that they may fill. */
static inline uint64_t call_many__questions__log_all_answer(struct slice_u8 state, struct model__State st, uint64_t n,
        uint64_t batch)
{
    bool t5;

    t5 = base_state__promises__may_promise(state, st, n);
    if (!t5) {
        return 8u;
    }
    if ((st.filled + n) < 7u) {
        return 0u;
    }
    if (batch < 516u) {
        return 9u;
    }
    return 0u;
}

/* The answer of a transact: 0, or the number of the question that refuses it. */
static inline uint64_t call_many__questions__transact_answer(struct slice_u8 log, struct slice_u8 area, struct slice_u8 state,
        struct slice_u8 newest, struct slice_u8 blocks, struct slice_u8 batch, uint64_t writer, uint64_t home)
{
    uint64_t t9, t10, t20, t21;
    bool t11;
    struct model__Writer t16;

    t9 = call_many_fetch__questions__homes_answer(log, area, state, newest, blocks, writer, home);
    if (t9 != 0u) {
        return t9;
    }
    t10 = (uint64_t)blocks.len / 64u;
    t11 = call_many_fetch__allowed__may_store_all(log, area, state, newest, writer, home, t10);
    if (!t11) {
        return 19u;
    }
    t16 = base_state__writers__writer(state, writer);
    if (1u <= t16.mode) {
        return 6u;
    }
    t20 = load_8(state.ptr);
    t21 = load_8(state.ptr + 8u);
    return call_many__questions__log_all_answer(state, (struct model__State){.groups = t20, .homes = t21,
            .start = load_8(state.ptr + 16u), .next = load_8(state.ptr + 24u), .filled = load_8(state.ptr + 32u),
            .settled = load_8(state.ptr + 40u), .fenced = load_8(state.ptr + 48u), .durable = load_8(state.ptr + 56u),
            .last = load_8(state.ptr + 64u), .round = load_8(state.ptr + 88u), .cursor = load_8(state.ptr + 96u)}, t10,
            (uint64_t)batch.len);
}

/* Begins a transaction of the writer `w`, which holds the first of the lent blocks. */
static inline void call_many__steps__hold_first(struct slice_mut_u8 state, struct slice_u8 blocks, uint64_t w, uint64_t home)
{
    struct model__Writer t5;

    base_writers__begin(state, w);
    t5 = base_state__writers__writer((struct slice_u8){state.ptr, state.len}, w);
    call_store__stores__store_first(state, (struct slice_u8){blocks.ptr, (size_t)((uint64_t)64u - 0u)}, t5, w, home);
}

/* Stores the lent blocks but the first, which is held, by rising home. Returns how many bytes of the batch are written. */
static inline uint64_t call_many__steps__store_rest(struct slice_mut_u8 log, struct slice_mut_u8 state, struct slice_u8 blocks,
        struct slice_mut_u8 batch, uint64_t w, uint64_t home)
{
    uint64_t t7, t8, t9, t10, t13;

    t7 = (uint64_t)blocks.len / 64u;
    t8 = 0u;
    t9 = 1u;
    while (t9 < t7) {
        t10 = 64u * t9;
        t13 = call_store__stores__store_next(log, state, (struct slice_u8){blocks.ptr + (size_t)t10, (size_t)((t10 + 64u) - t10)},
                batch, w, home + t9);
        t8 = t8 + t13;
        t9 = t9 + 1u;
    }
    return t8;
}

/* Begins a transaction of the writer `w` and stores the lent blocks in it by rising home. Returns how many bytes of the batch are
   written. */
static inline uint64_t call_many__steps__store_all(struct slice_mut_u8 log, struct slice_mut_u8 state, struct slice_u8 blocks,
        struct slice_mut_u8 batch, uint64_t w, uint64_t home)
{
    call_many__steps__hold_first(state, blocks, w, home);
    return call_many__steps__store_rest(log, state, blocks, batch, w, home);
}

/* Commits one to seven blocks for the homes from `home` on, in one transaction of a writer that has none open and may store to
   them all. The figure is the ticket. */
static inline struct call_ask__Reply call_many__transacts__transact(struct slice_mut_u8 log, struct slice_u8 area,
        struct slice_mut_u8 state, struct slice_mut_u8 newest, struct slice_u8 blocks, struct slice_mut_u8 batch, uint64_t writer,
        uint64_t home)
{
    uint64_t t9, t10, t11, t14, t43, t44;
    struct model__State t12;

    t9 = call_many__questions__transact_answer((struct slice_u8){log.ptr, log.len}, area, (struct slice_u8){state.ptr, state.len},
            (struct slice_u8){newest.ptr, newest.len}, blocks, (struct slice_u8){batch.ptr, batch.len}, writer, home);
    if (t9 != 0u) {
        return (struct call_ask__Reply){.code = t9, .figure = 0u, .size = 0u};
    }
    t10 = writer;
    t11 = call_many__steps__store_all(log, state, blocks, batch, t10, home);
    t43 = load_8(state.ptr);
    t44 = load_8(state.ptr + 8u);
    t12 = (struct model__State){.groups = t43, .homes = t44, .start = load_8(state.ptr + 16u), .next = load_8(state.ptr + 24u),
            .filled = load_8(state.ptr + 32u), .settled = load_8(state.ptr + 40u), .fenced = load_8(state.ptr + 48u),
            .durable = load_8(state.ptr + 56u), .last = load_8(state.ptr + 64u), .round = load_8(state.ptr + 88u),
            .cursor = load_8(state.ptr + 96u)};
    t14 = call_commit__commit_next(log, area, state, newest, batch, t10);
    return (struct call_ask__Reply){.code = 0u, .figure = ((7u * t12.next) + t12.filled) + 1u, .size = t11 + t14};
}

/* Begins a transaction of an idle writer, stores one to seven blocks for the homes from `home` on and commits them. The figure is
   the ticket. [S-7, S-9, S-62] */
static inline struct call_ask__Reply kagutin__kagutin_transact(struct slice_mut_u8 log, struct slice_u8 area,
        struct slice_mut_u8 state, struct slice_mut_u8 newest, struct slice_u8 blocks, struct slice_mut_u8 batch, uint64_t writer,
        uint64_t home)
{
    return call_many__transacts__transact(log, area, state, newest, blocks, batch, writer, home);
}

/* A limit lowered to the group in which a writer's open transaction begins, if it has logged entries. */
static inline uint64_t log_limits__writers__writer_limit(struct slice_u8 state, uint64_t w, uint64_t limit)
{
    uint64_t t5;

    if ((uint64_t)state.ptr[(size_t)(104u + w)] < 3u) {
        return limit;
    }
    t5 = load_8(state.ptr + (size_t)((128u + (24u * w)) + 8u)) / 7u;
    if (t5 < limit) {
        return t5;
    }
    return limit;
}

/* The highest start up to `limit` with no entry of an open transaction before it. */
static inline uint64_t log_limits__writers__open_limit(struct slice_u8 state, uint64_t limit)
{
    uint64_t t3, t4;

    t3 = limit;
    t4 = 0u;
    while (t4 < 8u) {
        t3 = log_limits__writers__writer_limit(state, t4, t3);
        t4 = t4 + 1u;
    }
    return t3;
}

/* The same with counters of its own, for a log of up to 64 groups. */
static APART struct log_scan__commits__Found log_scan__commits__walk_small(struct slice_u8 log, uint64_t groups, uint64_t homes,
        uint64_t start, uint64_t n)
{
    struct array_u16_448 t6;

    memset(&t6, 0, sizeof t6);
    return log_scan__commits__walk_with(log, (struct slice_mut_u16){t6.at, 448u}, groups, homes, start, n);
}

/* The same for a log of up to 128 groups, 256, 512 and 1,024: at most half of the counters are made empty for nothing. */
static APART struct log_scan__commits__Found log_scan__commits__walk_to_128(struct slice_u8 log, uint64_t groups, uint64_t homes,
        uint64_t start, uint64_t n)
{
    struct array_u16_896 t6;

    memset(&t6, 0, sizeof t6);
    return log_scan__commits__walk_with(log, (struct slice_mut_u16){t6.at, 896u}, groups, homes, start, n);
}

static APART struct log_scan__commits__Found log_scan__commits__walk_to_256(struct slice_u8 log, uint64_t groups, uint64_t homes,
        uint64_t start, uint64_t n)
{
    struct array_u16_1792 t6;

    memset(&t6, 0, sizeof t6);
    return log_scan__commits__walk_with(log, (struct slice_mut_u16){t6.at, 1792u}, groups, homes, start, n);
}

static APART struct log_scan__commits__Found log_scan__commits__walk_to_512(struct slice_u8 log, uint64_t groups, uint64_t homes,
        uint64_t start, uint64_t n)
{
    struct array_u16_3584 t6;

    memset(&t6, 0, sizeof t6);
    return log_scan__commits__walk_with(log, (struct slice_mut_u16){t6.at, 3584u}, groups, homes, start, n);
}

static APART struct log_scan__commits__Found log_scan__commits__walk_to_1024(struct slice_u8 log, uint64_t groups, uint64_t homes,
        uint64_t start, uint64_t n)
{
    struct array_u16_7168 t6;

    memset(&t6, 0, sizeof t6);
    return log_scan__commits__walk_with(log, (struct slice_mut_u16){t6.at, 7168u}, groups, homes, start, n);
}

/* The same for any log. This and `walk_small` serve two calls each, and so stay functions of their own: a small log never takes
   the counters of a large one. */
static inline struct log_scan__commits__Found log_scan__commits__walk_large(struct slice_u8 log, uint64_t groups, uint64_t homes,
        uint64_t start, uint64_t n)
{
    if (groups <= 128u) {
        return log_scan__commits__walk_to_128(log, groups, homes, start, n);
    }
    if (groups <= 256u) {
        return log_scan__commits__walk_to_256(log, groups, homes, start, n);
    }
    if (groups <= 512u) {
        return log_scan__commits__walk_to_512(log, groups, homes, start, n);
    }
    return log_scan__commits__walk_to_1024(log, groups, homes, start, n);
}

/* Where the committed transactions end among the `n` positions of the log from its start on, or 0 for none. */
static inline uint64_t call_trim__start__committed_end(struct slice_u8 log, uint64_t groups, uint64_t homes, uint64_t start,
        uint64_t n)
{
    struct log_scan__commits__Found t6, t7;

    if (groups <= 64u) {
        t6 = log_scan__commits__walk_small(log, groups, homes, start, n);
        return t6.end;
    }
    t7 = log_scan__commits__walk_large(log, groups, homes, start, n);
    return t7.end;
}

/* Whether the word of a tag, if it closes a transaction at a position, closes one that begins in group `limit` or after. */
static inline bool log_limits__spans__begins_after(uint64_t word, uint64_t position, uint64_t limit)
{
    uint64_t t4;

    t4 = (word >> 14u) & 8191u;
    if (position < t4) {
        return false;
    }
    if (((position - t4) / 7u) < limit) {
        return false;
    }
    return true;
}

/* A limit lowered to the group in which the transaction begins that the word of a tag closes, if it closes one. */
static inline uint64_t log_limits__spans__word_limit(uint64_t word, uint64_t position, uint64_t base, uint64_t homes,
        uint64_t limit)
{
    uint64_t t7, t9, t11;
    struct model__Tag t8;

    t8 = base_codec__tags__read_tag(word, position, base, homes);
    if (t8.tag == 0u) {
        t9 = limit;
    } else if (t8.tag == 1u) {
        t9 = limit;
    } else {
        t7 = t8.u64_1 / 7u;
        if (t7 < limit) {
            t11 = t7;
        } else {
            t11 = limit;
        }
        t9 = t11;
    }
    return t9;
}

/* The same for tag `k` of a group with turn `turn`. A tag that closes nothing, or a transaction that begins at the limit or after
   it, is passed whatever its data block is. */
static inline uint64_t log_limits__spans__tag_limit(struct slice_u8 group, uint64_t turn, uint64_t k, uint64_t position,
        uint64_t base, uint64_t homes, uint64_t limit)
{
    uint64_t t8, t11;
    bool t13;

    t8 = load_8(group.ptr + (size_t)(8u + (8u * k)));
    if ((t8 & 2u) == 0u) {
        return limit;
    }
    t13 = log_limits__spans__begins_after(t8, position, limit);
    if (t13) {
        return limit;
    }
    t11 = log_scan__groups__word_there(group, turn, k);
    return log_limits__spans__word_limit(t11, position, base, homes, limit);
}

/* A limit lowered by the first `m` tags of a group, which says nothing where it is not the valid group with number `n` and turn
   `turn`. */
static inline uint64_t log_limits__spans__group_limit(struct slice_u8 group, uint64_t groups, uint64_t homes, uint64_t start,
        uint64_t n, uint64_t turn, uint64_t m, uint64_t limit)
{
    uint64_t t9, t10, t11, t12;
    bool t13;

    t13 = log_scan__groups__group_valid(group, groups, start, n);
    if (!t13) {
        return limit;
    }
    t9 = 7u * start;
    t10 = limit;
    t11 = 7u * n;
    t12 = 0u;
    while (t12 < m) {
        t10 = log_limits__spans__tag_limit(group, turn, t12, t11, t9, homes, t10);
        t11 = t11 + 1u;
        t12 = t12 + 1u;
    }
    return t10;
}

/* The highest start up to `limit` that no transaction of a closing entry below `end` lies across. */
static inline uint64_t log_limits__spans__closed_limit(struct slice_u8 log, uint64_t groups, uint64_t homes, uint64_t start,
        uint64_t end, uint64_t limit)
{
    uint64_t t7, t8, t10, t12;
    struct log_scan__slots__RingSlot t9;

    t7 = limit;
    t8 = (end + 6u) / 7u;
    t9 = log_scan__slots__first_slot(t8, groups);
    while (t7 < t8) {
        t8 = t8 - 1u;
        t9 = log_scan__slots__previous_slot(t9, groups);
        t10 = 64u + (512u * t9.slot);
        t12 = log_scan__commits__in_group(end - (7u * t8));
        t7 = log_limits__spans__group_limit((struct slice_u8){log.ptr + (size_t)t10, (size_t)((t10 + 512u) - t10)}, groups, homes,
                start, t8, t9.turn, t12, t7);
    }
    return t7;
}

/* The highest start up to the settled position that no open or committed transaction lies across. The log is not looked at where
   open transactions leave no start but its own, or where the highest that they leave lies past all entries. */
static inline uint64_t call_trim__start__new_start(struct slice_u8 log, struct slice_u8 area, struct slice_u8 state,
        struct model__State st)
{
    uint64_t t5, t6, t8;
    (void)area;

    t5 = log_limits__writers__open_limit(state, st.settled / 7u);
    if (t5 == st.start) {
        return t5;
    }
    t6 = (7u * st.next) + st.filled;
    if (t6 <= (7u * t5)) {
        return t5;
    }
    t8 = call_trim__start__committed_end(log, st.groups, st.homes, st.start, t6 - (7u * st.start));
    return log_limits__spans__closed_limit(log, st.groups, st.homes, st.start, t8, t5);
}

/* Writes the new header and a fence into the batch. */
static inline void call_trim__moves__write_header(struct slice_mut_u8 batch, uint64_t groups, uint64_t homes, uint64_t start)
{
    uint64_t t5;

    t5 = base_batch__records__header_write(batch, 0u, start, groups, homes);
    (void)base_batch__records__fence(batch, t5);
}

/* The last closing entry that is left in a log from a start on, 0 for none. */
static inline uint64_t call_trim__moves__kept_last(uint64_t last, uint64_t start)
{
    uint64_t t5;

    if (last <= (7u * start)) {
        t5 = 0u;
    } else {
        t5 = last;
    }
    return t5;
}

/* Puts the new start, the fenced position and the last closing entry into the strip. */
static inline void call_trim__moves__move_state(struct slice_mut_u8 state, struct model__State st, uint64_t start)
{
    uint64_t t4;

    store_8(state.ptr + 16u, start);
    store_8(state.ptr + 48u, 7u * st.next);
    t4 = call_trim__moves__kept_last(st.last, start);
    store_8(state.ptr + 64u, t4);
}

/* Keeps no position any more for a home where it lies before a bound. */
static inline void log_newest__positions__forget_one(struct slice_mut_u8 newest, uint64_t bound, uint64_t home)
{
    if (bound <= load_8(newest.ptr + (size_t)(8u * home))) {
        return;
    }
    store_8(newest.ptr + (size_t)(8u * home), UINT64_C(0xffffffffffffffff));
}

/* The same for the eight homes from `home` on, in a row. */
static inline void log_newest__positions__forget_eight(struct slice_mut_u8 newest, uint64_t bound, uint64_t home)
{
    log_newest__positions__forget_one(newest, bound, home);
    log_newest__positions__forget_one(newest, bound, home + 1u);
    log_newest__positions__forget_one(newest, bound, home + 2u);
    log_newest__positions__forget_one(newest, bound, home + 3u);
    log_newest__positions__forget_one(newest, bound, home + 4u);
    log_newest__positions__forget_one(newest, bound, home + 5u);
    log_newest__positions__forget_one(newest, bound, home + 6u);
    log_newest__positions__forget_one(newest, bound, home + 7u);
}

/* The same for the homes from `from` to below `upto`. */
static inline void log_newest__positions__forget_to(struct slice_mut_u8 newest, uint64_t bound, uint64_t from, uint64_t upto)
{
    uint64_t t5;

    t5 = from;
    while (t5 < upto) {
        log_newest__positions__forget_one(newest, bound, t5);
        t5 = t5 + 1u;
    }
}

/* Keeps no position any more for the first `homes` homes where it lies before a bound, eight at a time. */
static inline void log_newest__positions__forget(struct slice_mut_u8 newest, uint64_t bound, uint64_t homes)
{
    uint64_t t4;

    t4 = 0u;
    while ((t4 + 8u) <= homes) {
        log_newest__positions__forget_eight(newest, bound, t4);
        t4 = t4 + 8u;
    }
    log_newest__positions__forget_to(newest, bound, t4, homes);
}

/* Moves the start: the batch, the header in the log copy, the strip, and the newest positions, with those of the list of rights
   carried over. */
static inline void call_trim__moves__move_start(struct slice_mut_u8 log, struct slice_mut_u8 state, struct slice_mut_u8 newest,
        struct slice_mut_u8 batch, struct model__State st, uint64_t start)
{
    call_trim__moves__write_header(batch, st.groups, st.homes, start);
    base_areas__header__put_header(log, 0u, start, st.groups, st.homes);
    call_trim__moves__move_state(state, st, start);
    log_newest__positions__forget(newest, 7u * start, st.homes);
    base_state__listed__carry_listed(state, (struct slice_u8){newest.ptr, newest.len}, st.homes);
}

/* Moves the log's start up as far as no open or committed transaction lies across it, and writes the new header and a fence if it
   moves. Kept positions before the new start become none. */
static inline struct call_ask__Reply call_trim__trim(struct slice_mut_u8 log, struct slice_u8 area, struct slice_mut_u8 state,
        struct slice_mut_u8 newest, struct slice_mut_u8 batch)
{
    uint64_t t6, t8, t34, t35;
    struct model__State t7;

    t6 = call_ask__newest_answer((struct slice_u8){log.ptr, log.len}, area, (struct slice_u8){state.ptr, state.len},
            (struct slice_u8){newest.ptr, newest.len});
    if (t6 != 0u) {
        return (struct call_ask__Reply){.code = t6, .figure = 0u, .size = 0u};
    }
    t34 = load_8(state.ptr);
    t35 = load_8(state.ptr + 8u);
    t7 = (struct model__State){.groups = t34, .homes = t35, .start = load_8(state.ptr + 16u), .next = load_8(state.ptr + 24u),
            .filled = load_8(state.ptr + 32u), .settled = load_8(state.ptr + 40u), .fenced = load_8(state.ptr + 48u),
            .durable = load_8(state.ptr + 56u), .last = load_8(state.ptr + 64u), .round = load_8(state.ptr + 88u),
            .cursor = load_8(state.ptr + 96u)};
    t8 = call_trim__start__new_start((struct slice_u8){log.ptr, log.len}, area, (struct slice_u8){state.ptr, state.len}, t7);
    if (UINT64_C(0x800000000000) < t8) {
        return (struct call_ask__Reply){.code = 10u, .figure = 0u, .size = 0u};
    }
    if (t8 == t7.start) {
        return (struct call_ask__Reply){.code = 0u, .figure = 0u, .size = 0u};
    }
    if ((uint64_t)batch.len < 68u) {
        return (struct call_ask__Reply){.code = 9u, .figure = 0u, .size = 0u};
    }
    call_trim__moves__move_start(log, state, newest, batch, t7, t8);
    return (struct call_ask__Reply){.code = 0u, .figure = 0u, .size = 68u};
}

/* Moves the log's start up as far as no transaction lies across it. [S-7, S-9, S-39] */
static inline struct call_ask__Reply kagutin__kagutin_trim(struct slice_mut_u8 log, struct slice_u8 area,
        struct slice_mut_u8 state, struct slice_mut_u8 newest, struct slice_mut_u8 batch)
{
    return call_trim__trim(log, area, state, newest, batch);
}

/* Where the committed transactions end among the `n` positions of the log from its start on, or 0 for none. */
static inline uint64_t call_usage__entries__committed_end(struct slice_u8 log, uint64_t groups, uint64_t homes, uint64_t start,
        uint64_t n)
{
    struct log_scan__commits__Found t6, t7;

    if (groups <= 64u) {
        t6 = log_scan__commits__walk_small(log, groups, homes, start, n);
        return t6.end;
    }
    t7 = log_scan__commits__walk_large(log, groups, homes, start, n);
    return t7.end;
}

/* A sum with the number of entries that the word of a tag counts, if it closes a transaction. */
static inline uint64_t call_usage__entries__word_entries(uint64_t word, uint64_t position, uint64_t base, uint64_t homes,
        uint64_t sum)
{
    struct model__Tag t7;
    uint64_t t8;

    t7 = base_codec__tags__read_tag(word, position, base, homes);
    if (t7.tag == 0u) {
        t8 = sum;
    } else if (t7.tag == 1u) {
        t8 = sum;
    } else {
        t8 = sum + t7.u64_3;
    }
    return t8;
}

/* A sum with those of the first `m` tags of a group, which says nothing where it is not the valid group with number `n` and turn
   `turn`. */
static inline uint64_t call_usage__entries__group_entries(struct slice_u8 group, uint64_t groups, uint64_t homes, uint64_t start,
        uint64_t n, uint64_t turn, uint64_t m, uint64_t sum)
{
    struct array_u64_7 t9, t16;
    uint64_t t10, t11, t12, t13;
    bool t14;

    t14 = log_scan__groups__group_valid(group, groups, start, n);
    if (!t14) {
        return sum;
    }
    t16 = log_scan__groups__tag_words(group, turn);
    t9 = t16;
    t10 = 7u * start;
    t11 = sum;
    t12 = 7u * n;
    t13 = 0u;
    while (t13 < m) {
        t11 = call_usage__entries__word_entries(t9.at[(size_t)t13], t12, t10, homes, t11);
        t12 = t12 + 1u;
        t13 = t13 + 1u;
    }
    return t11;
}

/* The entries that all closing entries below `end` count. */
static inline uint64_t call_usage__entries__closed_entries(struct slice_u8 log, uint64_t groups, uint64_t homes, uint64_t start,
        uint64_t end)
{
    uint64_t t6, t7, t8, t9, t11, t13;
    struct log_scan__slots__RingSlot t10;

    t6 = 7u * start;
    if (end <= t6) {
        return 0u;
    }
    t7 = 0u;
    t8 = end - t6;
    t9 = start;
    t10 = log_scan__slots__first_slot(start, groups);
    while (0u < t8) {
        t11 = 64u + (512u * t10.slot);
        t13 = log_scan__commits__in_group(t8);
        t7 = call_usage__entries__group_entries((struct slice_u8){log.ptr + (size_t)t11, (size_t)((t11 + 512u) - t11)}, groups,
                homes, start, t9, t10.turn, t13, t7);
        t10 = log_scan__slots__next_slot(t10, groups);
        t9 = t9 + 1u;
        t8 = t8 - t13;
    }
    return t7;
}

/* The entries of the transactions that are committed among the `n` positions of the log from its start on. */
static inline uint64_t call_usage__entries__committed_entries(struct slice_u8 log, uint64_t groups, uint64_t homes,
        uint64_t start, uint64_t n)
{
    uint64_t t6;

    t6 = call_usage__entries__committed_end(log, groups, homes, start, n);
    return call_usage__entries__closed_entries(log, groups, homes, start, t6);
}

/* How many entries writer `w` has logged in an open transaction. */
static inline uint64_t call_usage__writers__logged(struct slice_u8 state, uint64_t w)
{
    struct model__Writer t3;

    t3 = base_state__writers__writer(state, w);
    return base_state__writers__count_for(t3);
}

/* How many entries the eight writers have logged in open transactions. */
static inline uint64_t call_usage__writers__open_entries(struct slice_u8 state)
{
    uint64_t t2, t3, t5;

    t2 = 0u;
    t3 = 0u;
    while (t3 < 8u) {
        t5 = call_usage__writers__logged(state, t3);
        t2 = t2 + t5;
        t3 = t3 + 1u;
    }
    return t2;
}

/* The places that are live: entries of committed transactions in the log copy, and those that open transactions have logged. */
static inline uint64_t call_usage__live_entries(struct slice_u8 log, struct slice_u8 area, struct slice_u8 state,
        struct model__State st)
{
    uint64_t t6, t7;
    (void)area;

    t6 = call_usage__entries__committed_entries(log, st.groups, st.homes, st.start, ((7u * st.next)
            + st.filled) - (7u * st.start));
    t7 = call_usage__writers__open_entries(state);
    return t6 + t7;
}

/* What is left of some places, none if there are fewer. */
static inline uint64_t call_usage__rest(uint64_t places, uint64_t used)
{
    if (places < used) {
        return 0u;
    }
    return places - used;
}

/* The holder of the writers up to `w`, where `h` is that of those before it. */
static inline struct model__Holder call_usage__writers__lower(struct slice_u8 state, uint64_t w, struct model__Holder h)
{
    struct model__Writer t4;

    t4 = base_state__writers__writer(state, w);
    if (!(3u <= t4.mode)) {
        return h;
    }
    if (h.writer != 8u) {
        if (h.first <= t4.first) {
            return h;
        }
    }
    return (struct model__Holder){.writer = w, .first = t4.first};
}

/* The writer whose logged entries begin lowest, with the position where they do; 8 and 0 if no writer has any. */
static inline struct model__Holder call_usage__writers__holder(struct slice_u8 state)
{
    struct model__Holder t2;
    uint64_t t3;

    t2 = (struct model__Holder){.writer = 8u, .first = 0u};
    t3 = 0u;
    while (t3 < 8u) {
        t2 = call_usage__writers__lower(state, t3, t2);
        t3 = t3 + 1u;
    }
    return t2;
}

/* What a done call tells. */
static inline struct model__Usage call_usage__told(struct slice_u8 log, struct slice_u8 area, struct slice_u8 state)
{
    struct model__State t4;
    uint64_t t5, t6, t7, t8, t13, t14;
    struct model__Holder t9;

    t13 = load_8(state.ptr);
    t14 = load_8(state.ptr + 8u);
    t4 = (struct model__State){.groups = t13, .homes = t14, .start = load_8(state.ptr + 16u), .next = load_8(state.ptr + 24u),
            .filled = load_8(state.ptr + 32u), .settled = load_8(state.ptr + 40u), .fenced = load_8(state.ptr + 48u),
            .durable = load_8(state.ptr + 56u), .last = load_8(state.ptr + 64u), .round = load_8(state.ptr + 88u),
            .cursor = load_8(state.ptr + 96u)};
    t5 = call_usage__live_entries(log, area, state, t4);
    t6 = (7u * (t4.start + t4.groups)) - ((7u * t4.next) + t4.filled);
    t7 = call_usage__rest((7u * t4.groups) - t6, t5);
    t8 = base_state__promises__promised(state);
    t9 = call_usage__writers__holder(state);
    return (struct model__Usage){.code = 0u, .live = t5, .dead = t7, .free = t6, .promised = t8, .holder = t9.writer,
            .first = t9.first};
}

/* Tells how many places of the log are live, dead, free and promised, and which open transaction lies lowest in it. */
static inline struct model__Usage call_usage__usage(struct slice_u8 log, struct slice_u8 area, struct slice_u8 state)
{
    uint64_t t4;

    t4 = call_ask__state_answer(log, area, state);
    if (t4 != 0u) {
        return (struct model__Usage){.code = t4, .live = 0u, .dead = 0u, .free = 0u, .promised = 0u, .holder = 0u, .first = 0u};
    }
    return call_usage__told(log, area, state);
}

/* Tells how many places of the log are live, dead, free and promised, and which open transaction lies lowest in it. [S-7, S-9,
   S-45] */
static inline struct model__Usage kagutin__kagutin_usage(struct slice_u8 log, struct slice_u8 area, struct slice_u8 state)
{
    return call_usage__usage(log, area, state);
}

/* Whether all that is told can be meant: a medium, the groups of a store, and a cursor in a batch of `size` bytes. */
static inline bool object_runner__asked(uint64_t landing, uint64_t groups, uint64_t next, uint64_t size,
        struct object_runner__Cursor c)
{
    if (1u < landing) {
        return false;
    }
    if (groups < 1u) {
        return false;
    }
    if (1024u < groups) {
        return false;
    }
    if (size < c.at) {
        return false;
    }
    if (next < c.headed) {
        return false;
    }
    return c.stage <= 2u;
}

/* Whether the two bytes of `mark` stand at index `at`. */
static inline bool object_runner__has_mark(struct slice_u8 s, uint64_t at, struct slice_u8 mark)
{
    if (s.ptr[(size_t)at] != mark.ptr[0u]) {
        return false;
    }
    if (s.ptr[(size_t)(at + 1u)] != mark.ptr[1u]) {
        return false;
    }
    return true;
}

/* Whether a group goes out without its first word: on words, unless that is zeros. */
static inline bool object_runner__records__parts(struct slice_u8 batch, bool words, uint64_t at)
{
    bool t5;

    if (words) {
        t5 = base_codec__blocks__all_zero(batch, at + 4u, 8u);
        return !t5;
    }
    return false;
}

/* A group; on words without its first word, unless that is zeros. */
static inline struct object_runner__Action object_runner__records__group_action(struct slice_u8 batch, bool words,
        uint64_t groups, struct object_runner__Cursor c)
{
    uint64_t t5, t6, t7, t8;
    struct object_runner__Cursor t9;
    bool t14;

    t5 = c.at;
    if (((uint64_t)batch.len - t5) < 516u) {
        return (struct object_runner__Action){.kind = 3u, .area = 0u, .offset = 0u, .size = 0u, .source = 0u, .from = 0u,
                .at = c.at, .headed = c.headed, .stage = c.stage};
    }
    t6 = load_2(batch.ptr + (size_t)(t5 + 2u));
    if (groups <= t6) {
        return (struct object_runner__Action){.kind = 3u, .area = 0u, .offset = 0u, .size = 0u, .source = 0u, .from = 0u,
                .at = c.at, .headed = c.headed, .stage = c.stage};
    }
    t7 = 64u + (512u * t6);
    t8 = c.at + 4u;
    t9 = (struct object_runner__Cursor){.at = c.at + 516u, .headed = c.headed, .stage = 0u};
    t14 = object_runner__records__parts(batch, words, t5);
    if (t14) {
        return (struct object_runner__Action){.kind = 1u, .area = 0u, .offset = t7 + 8u, .size = 504u, .source = 0u, .from = t8
                + 8u, .at = t9.at, .headed = t9.headed, .stage = t9.stage};
    }
    return (struct object_runner__Action){.kind = 1u, .area = 0u, .offset = t7, .size = 512u, .source = 0u, .from = t8,
            .at = t9.at, .headed = t9.headed, .stage = t9.stage};
}

/* A home. */
static inline struct object_runner__Action object_runner__records__home_action(struct slice_u8 batch, uint64_t homes,
        struct object_runner__Cursor c)
{
    uint64_t t4, t5;
    struct object_runner__Cursor t120;

    t4 = c.at;
    if (((uint64_t)batch.len - t4) < 68u) {
        return (struct object_runner__Action){.kind = 3u, .area = 0u, .offset = 0u, .size = 0u, .source = 0u, .from = 0u,
                .at = c.at, .headed = c.headed, .stage = c.stage};
    }
    t5 = load_2(batch.ptr + (size_t)(t4 + 2u));
    if (homes <= t5) {
        return (struct object_runner__Action){.kind = 3u, .area = 0u, .offset = 0u, .size = 0u, .source = 0u, .from = 0u,
                .at = c.at, .headed = c.headed, .stage = c.stage};
    }
    t120 = (struct object_runner__Cursor){.at = c.at + 68u, .headed = c.headed, .stage = 0u};
    return (struct object_runner__Action){.kind = 1u, .area = 1u, .offset = 64u * t5, .size = 64u, .source = 0u, .from = c.at
            + 4u, .at = t120.at, .headed = t120.headed, .stage = t120.stage};
}

/* Whether a header's first word goes out before the rest: on words, if it is zeros. */
static inline bool object_runner__records__wiping(struct slice_u8 batch, bool words, uint64_t at)
{
    if (words) {
        return base_codec__blocks__all_zero(batch, at + 2u, 8u);
    }
    return false;
}

/* A header without a mark: its first word, a fence, and then all of it. */
static inline struct object_runner__Action object_runner__records__wipe_action(struct object_runner__Cursor c)
{
    struct object_runner__Cursor t8, t10, t16;

    if (c.stage == 0u) {
        t8 = (struct object_runner__Cursor){.at = c.at, .headed = c.headed, .stage = 1u};
        return (struct object_runner__Action){.kind = 1u, .area = 0u, .offset = 0u, .size = 8u, .source = 0u, .from = c.at + 2u,
                .at = t8.at, .headed = t8.headed, .stage = t8.stage};
    }
    if (c.stage == 1u) {
        t10 = (struct object_runner__Cursor){.at = c.at, .headed = c.headed, .stage = 2u};
        return (struct object_runner__Action){.kind = 2u, .area = 0u, .offset = 0u, .size = 0u, .source = 0u, .from = 0u,
                .at = t10.at, .headed = t10.headed, .stage = t10.stage};
    }
    t16 = (struct object_runner__Cursor){.at = c.at + 66u, .headed = c.headed, .stage = 0u};
    return (struct object_runner__Action){.kind = 1u, .area = 0u, .offset = 0u, .size = 64u, .source = 0u, .from = c.at + 2u,
            .at = t16.at, .headed = t16.headed, .stage = t16.stage};
}

/* A header. */
static inline struct object_runner__Action object_runner__records__header_action(struct slice_u8 batch, bool words,
        struct object_runner__Cursor c)
{
    uint64_t t4;
    bool t8;
    struct object_runner__Cursor t15;

    t4 = c.at;
    if (((uint64_t)batch.len - t4) < 66u) {
        return (struct object_runner__Action){.kind = 3u, .area = 0u, .offset = 0u, .size = 0u, .source = 0u, .from = 0u,
                .at = c.at, .headed = c.headed, .stage = c.stage};
    }
    t8 = object_runner__records__wiping(batch, words, t4);
    if (t8) {
        return object_runner__records__wipe_action(c);
    }
    t15 = (struct object_runner__Cursor){.at = c.at + 66u, .headed = c.headed, .stage = 0u};
    return (struct object_runner__Action){.kind = 1u, .area = 0u, .offset = 0u, .size = 64u, .source = 0u, .from = c.at + 2u,
            .at = t15.at, .headed = t15.headed, .stage = t15.stage};
}

/* Whether first words are due: on words, those of the groups from `headed` to below the next one. */
static inline bool object_runner__records__due(bool words, uint64_t headed, uint64_t next)
{
    if (words) {
        return headed < next;
    }
    return false;
}

/* First words are due: a fence, and then each, from the log copy. */
static inline struct object_runner__Action object_runner__records__due_action(uint64_t groups, struct object_runner__Cursor c)
{
    uint64_t t4;
    struct object_runner__Cursor t10, t12;

    if (c.stage == 0u) {
        t10 = (struct object_runner__Cursor){.at = c.at, .headed = c.headed, .stage = 1u};
        return (struct object_runner__Action){.kind = 2u, .area = 0u, .offset = 0u, .size = 0u, .source = 0u, .from = 0u,
                .at = t10.at, .headed = t10.headed, .stage = t10.stage};
    }
    t4 = 64u + (512u * (c.headed % groups));
    t12 = (struct object_runner__Cursor){.at = c.at, .headed = c.headed + 1u, .stage = 1u};
    return (struct object_runner__Action){.kind = 1u, .area = 0u, .offset = t4, .size = 8u, .source = 1u, .from = t4,
            .at = t12.at, .headed = t12.headed, .stage = t12.stage};
}

/* A fence; where first words are due these come first. */
static inline struct object_runner__Action object_runner__records__fence_action(bool words, uint64_t groups, uint64_t next,
        struct object_runner__Cursor c)
{
    bool t6;
    struct object_runner__Cursor t9;

    t6 = object_runner__records__due(words, c.headed, next);
    if (t6) {
        return object_runner__records__due_action(groups, c);
    }
    t9 = (struct object_runner__Cursor){.at = c.at + 2u, .headed = c.headed, .stage = 0u};
    return (struct object_runner__Action){.kind = 2u, .area = 0u, .offset = 0u, .size = 0u, .source = 0u, .from = 0u, .at = t9.at,
            .headed = t9.headed, .stage = t9.stage};
}

/* The action for the record at the cursor, by its mark. */
static inline struct object_runner__Action object_runner__record_action(struct slice_u8 batch, bool words, uint64_t groups,
        uint64_t homes, uint64_t next, struct object_runner__Cursor c)
{
    uint64_t t7;
    struct array_u8_2 t8, t9, t10, t11;
    bool t12, t15, t18, t21;

    t8 = (struct array_u8_2){{71u, 87u}};
    t9 = (struct array_u8_2){{72u, 87u}};
    t10 = (struct array_u8_2){{75u, 87u}};
    t11 = (struct array_u8_2){{70u, 78u}};
    t7 = c.at;
    t12 = object_runner__has_mark(batch, t7, (struct slice_u8){t8.at, 2u});
    if (t12) {
        return object_runner__records__group_action(batch, words, groups, c);
    }
    t15 = object_runner__has_mark(batch, t7, (struct slice_u8){t9.at, 2u});
    if (t15) {
        return object_runner__records__home_action(batch, homes, c);
    }
    t18 = object_runner__has_mark(batch, t7, (struct slice_u8){t10.at, 2u});
    if (t18) {
        return object_runner__records__header_action(batch, words, c);
    }
    t21 = object_runner__has_mark(batch, t7, (struct slice_u8){t11.at, 2u});
    if (t21) {
        return object_runner__records__fence_action(words, groups, next, c);
    }
    return (struct object_runner__Action){.kind = 3u, .area = 0u, .offset = 0u, .size = 0u, .source = 0u, .from = 0u, .at = c.at,
            .headed = c.headed, .stage = c.stage};
}

/* The next action of a batch. `landing` is what the medium keeps whole (0 words of 8 bytes, 1 blocks of 64), `next` the number of
   the next group that has not been submitted. Whatever is asked: a batch that is none, or a cursor that no batch has, is refused.
   [S-85] */
static inline struct object_runner__Action object_runner__kagutin_next_action(struct slice_u8 batch, uint64_t landing,
        uint64_t groups, uint64_t homes, uint64_t next, uint64_t at, uint64_t headed, uint64_t stage)
{
    struct object_runner__Cursor t9;
    uint64_t t10;
    bool t12;

    t9 = (struct object_runner__Cursor){.at = at, .headed = headed, .stage = stage};
    t10 = (uint64_t)batch.len;
    t12 = object_runner__asked(landing, groups, next, t10, t9);
    if (!t12) {
        return (struct object_runner__Action){.kind = 3u, .area = 0u, .offset = 0u, .size = 0u, .source = 0u, .from = 0u,
                .at = t9.at, .headed = t9.headed, .stage = t9.stage};
    }
    if (at == t10) {
        return (struct object_runner__Action){.kind = 0u, .area = 0u, .offset = 0u, .size = 0u, .source = 0u, .from = 0u,
                .at = t9.at, .headed = t9.headed, .stage = t9.stage};
    }
    if ((t10 - at) < 2u) {
        return (struct object_runner__Action){.kind = 3u, .area = 0u, .offset = 0u, .size = 0u, .source = 0u, .from = 0u,
                .at = t9.at, .headed = t9.headed, .stage = t9.stage};
    }
    return object_runner__record_action(batch, landing == 0u, groups, homes, next, t9);
}

struct kagutin_reply kagutin_abort(const uint8_t *log, size_t log_size, const uint8_t *area, size_t area_size, uint8_t *state,
        size_t state_size, uint64_t writer)
{
    ASK_BUFFERS(kagutin_reply, code, {log, log_size}, {area, area_size}, {state, state_size})
    struct call_ask__Reply r = kagutin__kagutin_abort((struct slice_u8){log, log_size}, (struct slice_u8){area, area_size},
            (struct slice_mut_u8){state, state_size}, writer);

    return (struct kagutin_reply){.code = r.code, .figure = r.figure, .size = r.size};
}

struct kagutin_reply kagutin_begin(const uint8_t *log, size_t log_size, const uint8_t *area, size_t area_size, uint8_t *state,
        size_t state_size, uint64_t writer)
{
    ASK_BUFFERS(kagutin_reply, code, {log, log_size}, {area, area_size}, {state, state_size})
    struct call_ask__Reply r = kagutin__kagutin_begin((struct slice_u8){log, log_size}, (struct slice_u8){area, area_size},
            (struct slice_mut_u8){state, state_size}, writer);

    return (struct kagutin_reply){.code = r.code, .figure = r.figure, .size = r.size};
}

struct kagutin_reply kagutin_begin_round(const uint8_t *log, size_t log_size, const uint8_t *area, size_t area_size,
        uint8_t *state, size_t state_size)
{
    ASK_BUFFERS(kagutin_reply, code, {log, log_size}, {area, area_size}, {state, state_size})
    struct call_ask__Reply r = kagutin__kagutin_begin_round((struct slice_u8){log, log_size}, (struct slice_u8){area, area_size},
            (struct slice_mut_u8){state, state_size});

    return (struct kagutin_reply){.code = r.code, .figure = r.figure, .size = r.size};
}

struct kagutin_reply kagutin_commit(uint8_t *log, size_t log_size, const uint8_t *area, size_t area_size, uint8_t *state,
        size_t state_size, uint8_t *newest, size_t newest_size, uint8_t *batch, size_t batch_size, uint64_t writer)
{
    ASK_BUFFERS(kagutin_reply, code, {log, log_size}, {area, area_size}, {state, state_size}, {newest, newest_size}, {batch,
            batch_size})
    struct call_ask__Reply r = kagutin__kagutin_commit((struct slice_mut_u8){log, log_size}, (struct slice_u8){area, area_size},
            (struct slice_mut_u8){state, state_size}, (struct slice_mut_u8){newest, newest_size}, (struct slice_mut_u8){batch,
            batch_size}, writer);

    return (struct kagutin_reply){.code = r.code, .figure = r.figure, .size = r.size};
}

struct kagutin_reply kagutin_confirm(const uint8_t *log, size_t log_size, const uint8_t *area, size_t area_size, uint8_t *state,
        size_t state_size)
{
    ASK_BUFFERS(kagutin_reply, code, {log, log_size}, {area, area_size}, {state, state_size})
    struct call_ask__Reply r = kagutin__kagutin_confirm((struct slice_u8){log, log_size}, (struct slice_u8){area, area_size},
            (struct slice_mut_u8){state, state_size});

    return (struct kagutin_reply){.code = r.code, .figure = r.figure, .size = r.size};
}

struct kagutin_reply kagutin_fetch(const uint8_t *log, size_t log_size, const uint8_t *area, size_t area_size,
        const uint8_t *state, size_t state_size, const uint8_t *newest, size_t newest_size, uint8_t *blocks, size_t blocks_size,
        uint64_t writer, uint64_t home)
{
    ASK_BUFFERS(kagutin_reply, code, {log, log_size}, {area, area_size}, {state, state_size}, {newest, newest_size}, {blocks,
            blocks_size})
    struct call_ask__Reply r = kagutin__kagutin_fetch((struct slice_u8){log, log_size}, (struct slice_u8){area, area_size},
            (struct slice_u8){state, state_size}, (struct slice_u8){newest, newest_size}, (struct slice_mut_u8){blocks,
            blocks_size}, writer, home);

    return (struct kagutin_reply){.code = r.code, .figure = r.figure, .size = r.size};
}

struct kagutin_reply kagutin_flush(const uint8_t *log, size_t log_size, const uint8_t *area, size_t area_size, uint8_t *state,
        size_t state_size, uint8_t *batch, size_t batch_size)
{
    ASK_BUFFERS(kagutin_reply, code, {log, log_size}, {area, area_size}, {state, state_size}, {batch, batch_size})
    struct call_ask__Reply r = kagutin__kagutin_flush((struct slice_u8){log, log_size}, (struct slice_u8){area, area_size},
            (struct slice_mut_u8){state, state_size}, (struct slice_mut_u8){batch, batch_size});

    return (struct kagutin_reply){.code = r.code, .figure = r.figure, .size = r.size};
}

struct kagutin_reply kagutin_format(uint8_t *log, size_t log_size, uint8_t *area, size_t area_size, uint8_t *batch,
        size_t batch_size)
{
    ASK_BUFFERS(kagutin_reply, code, {log, log_size}, {area, area_size}, {batch, batch_size})
    struct call_ask__Reply r = kagutin__kagutin_format((struct slice_mut_u8){log, log_size}, (struct slice_mut_u8){area,
            area_size}, (struct slice_mut_u8){batch, batch_size});

    return (struct kagutin_reply){.code = r.code, .figure = r.figure, .size = r.size};
}

struct kagutin_reply kagutin_open(uint8_t *log, size_t log_size, uint8_t *area, size_t area_size, uint8_t *state,
        size_t state_size, uint8_t *newest, size_t newest_size, uint8_t *batch, size_t batch_size)
{
    ASK_BUFFERS(kagutin_reply, code, {log, log_size}, {area, area_size}, {state, state_size}, {newest, newest_size}, {batch,
            batch_size})
    struct call_ask__Reply r = kagutin__kagutin_open((struct slice_mut_u8){log, log_size}, (struct slice_mut_u8){area, area_size},
            (struct slice_mut_u8){state, state_size}, (struct slice_mut_u8){newest, newest_size}, (struct slice_mut_u8){batch,
            batch_size});

    return (struct kagutin_reply){.code = r.code, .figure = r.figure, .size = r.size};
}

struct kagutin_reply kagutin_read(const uint8_t *log, size_t log_size, const uint8_t *area, size_t area_size,
        const uint8_t *state, size_t state_size, const uint8_t *newest, size_t newest_size, uint8_t *block, size_t block_size,
        uint64_t writer, uint64_t home)
{
    ASK_BUFFERS(kagutin_reply, code, {log, log_size}, {area, area_size}, {state, state_size}, {newest, newest_size}, {block,
            block_size})
    struct call_ask__Reply r = kagutin__kagutin_read((struct slice_u8){log, log_size}, (struct slice_u8){area, area_size},
            (struct slice_u8){state, state_size}, (struct slice_u8){newest, newest_size}, (struct slice_mut_u8){block,
            block_size}, writer, home);

    return (struct kagutin_reply){.code = r.code, .figure = r.figure, .size = r.size};
}

struct kagutin_reply kagutin_reserve(const uint8_t *log, size_t log_size, const uint8_t *area, size_t area_size, uint8_t *state,
        size_t state_size, uint64_t writer, uint64_t n)
{
    ASK_BUFFERS(kagutin_reply, code, {log, log_size}, {area, area_size}, {state, state_size})
    struct call_ask__Reply r = kagutin__kagutin_reserve((struct slice_u8){log, log_size}, (struct slice_u8){area, area_size},
            (struct slice_mut_u8){state, state_size}, writer, n);

    return (struct kagutin_reply){.code = r.code, .figure = r.figure, .size = r.size};
}

struct kagutin_reply kagutin_revise(const uint8_t *log, size_t log_size, const uint8_t *area, size_t area_size,
        const uint8_t *state, size_t state_size, const uint8_t *newest, size_t newest_size, uint8_t *blocks, size_t blocks_size,
        uint64_t writer, uint64_t home)
{
    ASK_BUFFERS(kagutin_reply, code, {log, log_size}, {area, area_size}, {state, state_size}, {newest, newest_size}, {blocks,
            blocks_size})
    struct call_ask__Reply r = kagutin__kagutin_revise((struct slice_u8){log, log_size}, (struct slice_u8){area, area_size},
            (struct slice_u8){state, state_size}, (struct slice_u8){newest, newest_size}, (struct slice_mut_u8){blocks,
            blocks_size}, writer, home);

    return (struct kagutin_reply){.code = r.code, .figure = r.figure, .size = r.size};
}

struct kagutin_reply kagutin_settle(const uint8_t *log, size_t log_size, uint8_t *area, size_t area_size, uint8_t *state,
        size_t state_size, uint8_t *batch, size_t batch_size)
{
    ASK_BUFFERS(kagutin_reply, code, {log, log_size}, {area, area_size}, {state, state_size}, {batch, batch_size})
    struct call_ask__Reply r = kagutin__kagutin_settle((struct slice_u8){log, log_size}, (struct slice_mut_u8){area, area_size},
            (struct slice_mut_u8){state, state_size}, (struct slice_mut_u8){batch, batch_size});

    return (struct kagutin_reply){.code = r.code, .figure = r.figure, .size = r.size};
}

struct kagutin_reply kagutin_step_round(const uint8_t *log, size_t log_size, uint8_t *area, size_t area_size, uint8_t *state,
        size_t state_size, uint8_t *batch, size_t batch_size, uint64_t homes)
{
    ASK_BUFFERS(kagutin_reply, code, {log, log_size}, {area, area_size}, {state, state_size}, {batch, batch_size})
    struct call_ask__Reply r = kagutin__kagutin_step_round((struct slice_u8){log, log_size}, (struct slice_mut_u8){area,
            area_size}, (struct slice_mut_u8){state, state_size}, (struct slice_mut_u8){batch, batch_size}, homes);

    return (struct kagutin_reply){.code = r.code, .figure = r.figure, .size = r.size};
}

struct kagutin_reply kagutin_store(uint8_t *log, size_t log_size, const uint8_t *area, size_t area_size, uint8_t *state,
        size_t state_size, const uint8_t *block, size_t block_size, uint8_t *batch, size_t batch_size, uint64_t writer,
        uint64_t home)
{
    ASK_BUFFERS(kagutin_reply, code, {log, log_size}, {area, area_size}, {state, state_size}, {block, block_size}, {batch,
            batch_size})
    struct call_ask__Reply r = kagutin__kagutin_store((struct slice_mut_u8){log, log_size}, (struct slice_u8){area, area_size},
            (struct slice_mut_u8){state, state_size}, (struct slice_u8){block, block_size}, (struct slice_mut_u8){batch,
            batch_size}, writer, home);

    return (struct kagutin_reply){.code = r.code, .figure = r.figure, .size = r.size};
}

struct kagutin_reply kagutin_transact(uint8_t *log, size_t log_size, const uint8_t *area, size_t area_size, uint8_t *state,
        size_t state_size, uint8_t *newest, size_t newest_size, const uint8_t *blocks, size_t blocks_size, uint8_t *batch,
        size_t batch_size, uint64_t writer, uint64_t home)
{
    ASK_BUFFERS(kagutin_reply, code, {log, log_size}, {area, area_size}, {state, state_size}, {newest, newest_size}, {blocks,
            blocks_size}, {batch, batch_size})
    struct call_ask__Reply r = kagutin__kagutin_transact((struct slice_mut_u8){log, log_size}, (struct slice_u8){area, area_size},
            (struct slice_mut_u8){state, state_size}, (struct slice_mut_u8){newest, newest_size}, (struct slice_u8){blocks,
            blocks_size}, (struct slice_mut_u8){batch, batch_size}, writer, home);

    return (struct kagutin_reply){.code = r.code, .figure = r.figure, .size = r.size};
}

struct kagutin_reply kagutin_trim(uint8_t *log, size_t log_size, const uint8_t *area, size_t area_size, uint8_t *state,
        size_t state_size, uint8_t *newest, size_t newest_size, uint8_t *batch, size_t batch_size)
{
    ASK_BUFFERS(kagutin_reply, code, {log, log_size}, {area, area_size}, {state, state_size}, {newest, newest_size}, {batch,
            batch_size})
    struct call_ask__Reply r = kagutin__kagutin_trim((struct slice_mut_u8){log, log_size}, (struct slice_u8){area, area_size},
            (struct slice_mut_u8){state, state_size}, (struct slice_mut_u8){newest, newest_size}, (struct slice_mut_u8){batch,
            batch_size});

    return (struct kagutin_reply){.code = r.code, .figure = r.figure, .size = r.size};
}

struct kagutin_places kagutin_usage(const uint8_t *log, size_t log_size, const uint8_t *area, size_t area_size,
        const uint8_t *state, size_t state_size)
{
    ASK_BUFFERS(kagutin_places, code, {log, log_size}, {area, area_size}, {state, state_size})
    struct model__Usage r = kagutin__kagutin_usage((struct slice_u8){log, log_size}, (struct slice_u8){area, area_size},
            (struct slice_u8){state, state_size});

    return (struct kagutin_places){.code = r.code, .live = r.live, .dead = r.dead, .free = r.free, .promised = r.promised,
            .holder = r.holder, .first = r.first};
}

struct kagutin_action kagutin_next_action(const uint8_t *batch, size_t batch_size, uint64_t landing, uint64_t groups,
        uint64_t homes, uint64_t next, uint64_t at, uint64_t headed, uint64_t stage)
{
    ASK_BUFFERS(kagutin_action, kind, {batch, batch_size})
    struct object_runner__Action r = object_runner__kagutin_next_action((struct slice_u8){batch, batch_size}, landing, groups,
            homes, next, at, headed, stage);

    return (struct kagutin_action){.kind = r.kind, .area = r.area, .offset = r.offset, .size = r.size, .source = r.source,
            .from = r.from, .at = r.at, .headed = r.headed, .stage = r.stage};
}
