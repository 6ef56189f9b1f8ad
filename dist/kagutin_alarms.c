/*
 * Kagutin as one C99 file, made by port/generate.py from the proved program.
 * Do not edit: change the sources under crates/ and run `make dist`.
 *
 * Needs kagutin_chains.h and kagutin_alarms.h, memcpy and memset; no heap, no other library but that of kagutin, no state
 * of its own. All that is not declared there is static. Where a compiler is
 * known, some helpers have a quicker form; -DKAGUTIN_PLAIN_C leaves them out.
 */
#include <stdbool.h>
#include <stddef.h>
#include <stdint.h>
#include <string.h>

#include "kagutin_chains.h"
#include "kagutin_alarms.h"

#if defined(__GNUC__) && !defined(__clang__) && SIZE_MAX < UINT64_MAX
/* Counts are 64 bits wide and proved to stay in memory; gcc warns of turns that they never reach. */
#pragma GCC diagnostic ignored "-Waggressive-loop-optimizations"
#endif

struct slice_u8 {
    const uint8_t *ptr;
    size_t len;
};

struct slice_mut_u8 {
    uint8_t *ptr;
    size_t len;
};

struct call_ask__Reply {
    uint64_t code;
    uint64_t figure;
    uint64_t size;
};

struct unit_alarms_list__Alarm {
    uint64_t identity;
    uint64_t class;
    uint64_t second;
};

struct array_u8_384 {
    uint8_t at[384];
};

struct unit_alarms__Gravest {
    uint64_t code;
    uint64_t identity;
    uint64_t alarm_class;
    uint64_t second;
};

struct array_u8_64 {
    uint8_t at[64];
};

#if defined(__GNUC__) && !defined(KAGUTIN_PLAIN_C)
#define QUICK_C 1
#else
#define QUICK_C 0
#endif

#if QUICK_C && defined(__BYTE_ORDER__) && defined(__ORDER_LITTLE_ENDIAN__) && __BYTE_ORDER__ == __ORDER_LITTLE_ENDIAN__ \
    && (defined(__x86_64__) || defined(__i386__) || defined(__ARM_FEATURE_UNALIGNED))
#define WHOLE_WORDS 1
#else
#define WHOLE_WORDS 0
#endif

#if QUICK_C && !defined(__clang__) && !defined(__OPTIMIZE_SIZE__) && __GNUC__ >= 8
#define UNROLL _Pragma("GCC unroll 4")
#else
#define UNROLL
#endif

/* With -DKAGUTIN_CHECK_BUFFERS every call answers 63 (KAGUTIN_BAD_BUFFERS), with zeros in all other fields, if a lent pointer is null or
   two lent buffers share a byte. Without it nothing is asked. */
#ifdef KAGUTIN_CHECK_BUFFERS
struct lent {
    const void *ptr;
    size_t size;
};

static bool are_apart(const struct lent *lent, size_t count)
{
    size_t i, j;

    for (i = 0; i < count; i++) {
        uintptr_t a = (uintptr_t)lent[i].ptr;

        if (lent[i].ptr == NULL || lent[i].size > UINTPTR_MAX - a)
            return false;
        for (j = 0; j < i; j++) {
            uintptr_t b = (uintptr_t)lent[j].ptr;

            if (lent[i].size != 0 && lent[j].size != 0 && a < b + lent[j].size && b < a + lent[i].size)
                return false;
        }
    }
    return true;
}

#define ASK_BUFFERS(result, answer, ...) \
    do { \
        const struct lent all_lent[] = {__VA_ARGS__}; \
        if (!are_apart(all_lent, sizeof all_lent / sizeof all_lent[0])) \
            return (struct result){.answer = 63u}; \
    } while (0);
#else
#define ASK_BUFFERS(result, answer, ...)
#endif

/* The number that 2 bytes make, lowest byte first. */
static inline uint64_t load_2(const uint8_t *p)
{
#if WHOLE_WORDS
    uint16_t x;

    memcpy(&x, p, 2);
    return x;
#else
    return p[0] | (uint64_t)p[1] << 8;
#endif
}

/* The number that 8 bytes make, lowest byte first. */
static inline uint64_t load_8(const uint8_t *p)
{
#if WHOLE_WORDS
    uint64_t x;

    memcpy(&x, p, 8);
    return x;
#else
    return p[0] | (uint64_t)p[1] << 8 | (uint64_t)p[2] << 16 | (uint64_t)p[3] << 24
        | (uint64_t)p[4] << 32 | (uint64_t)p[5] << 40 | (uint64_t)p[6] << 48 | (uint64_t)p[7] << 56;
#endif
}

/* Writes the low 2 bytes of a number, lowest byte first. */
static inline void store_2(uint8_t *p, uint64_t v)
{
#if WHOLE_WORDS
    uint16_t x = (uint16_t)v;

    memcpy(p, &x, 2);
#else
    p[0] = (uint8_t)v;
    p[1] = (uint8_t)(v >> 8);
#endif
}

/* Writes the low 8 bytes of a number, lowest byte first. */
static inline void store_8(uint8_t *p, uint64_t v)
{
#if WHOLE_WORDS
    uint64_t x = (uint64_t)v;

    memcpy(p, &x, 8);
#else
    p[0] = (uint8_t)v;
    p[1] = (uint8_t)(v >> 8);
    p[2] = (uint8_t)(v >> 16);
    p[3] = (uint8_t)(v >> 24);
    p[4] = (uint8_t)(v >> 32);
    p[5] = (uint8_t)(v >> 40);
    p[6] = (uint8_t)(v >> 48);
    p[7] = (uint8_t)(v >> 56);
#endif
}

/* Whether a class is from 1 to 9. */
static inline bool unit_alarms_list__fields__class_known(uint64_t class)
{
    if (class < 1u) {
        return false;
    }
    return class <= 9u;
}

static inline struct call_ask__Reply kagutin__kagutin_revise(struct slice_u8 log, struct slice_u8 area, struct slice_u8 state,
        struct slice_u8 newest, struct slice_mut_u8 blocks, uint64_t writer, uint64_t home)
{
    struct kagutin_reply r = kagutin_revise(log.ptr, log.len, area.ptr, area.len, state.ptr, state.len, newest.ptr, newest.len,
            blocks.ptr, blocks.len, writer, home);

    return (struct call_ask__Reply){.code = (uint64_t)r.code, .figure = (uint64_t)r.figure, .size = (uint64_t)r.size};
}

/* The number that the `k` bytes from index `at` on make, read byte by byte. */
static inline uint64_t base_codec__numbers__each_byte(struct slice_u8 s, uint64_t at, uint64_t k)
{
    uint64_t t4, t5, t6;

    t4 = 0u;
    t5 = at + k;
    t6 = 0u;
    while (t6 < k) {
        t5 = t5 - 1u;
        t4 = (t4 * 256u) + (uint64_t)s.ptr[(size_t)t5];
        t6 = t6 + 1u;
    }
    return t4;
}

/* The number that the `k` bytes from index `at` on make; it fits `k` bytes. The widths in use compile to one load or two. */
static inline uint64_t base_codec__numbers__number_1(struct slice_u8 s, uint64_t at)
{
    return base_codec__numbers__each_byte(s, at, 1u);
}

/* How many are open. */
static inline uint64_t unit_alarms_list__list__open_count(struct slice_u8 s)
{
    uint64_t t2, t4;

    t2 = base_codec__numbers__number_1(s, 0u);
    if (t2 <= 48u) {
        t4 = t2;
    } else {
        t4 = 48u;
    }
    return t4;
}

/* The place of the first alarm of that identity, or `n` if none of the `n` has it. */
static inline uint64_t unit_alarms_list__list__find(struct slice_u8 s, uint64_t n, uint64_t identity)
{
    uint64_t t4, t5;

    t4 = 0u;
    t5 = 8u;
    while (t4 < n) {
        if (load_2(s.ptr + (size_t)t5) == identity) {
            return t4;
        }
        t4 = t4 + 1u;
        t5 = t5 + 7u;
    }
    return n;
}

/* Writes `n` zeros from index `at` on, and leaves the other bytes as they were. */
static inline void base_codec__blocks__clear(struct slice_mut_u8 dst, uint64_t at, uint64_t n)
{
    uint64_t t4, t5;

    t4 = at;
    t5 = n;
    while (0u < t5) {
        dst.ptr[(size_t)t4] = 0u;
        t4 = t4 + 1u;
        t5 = t5 - 1u;
    }
}

/* Writes the bytes of `src` from index `at` on, and leaves the other bytes as they were. */
static inline void base_codec__blocks__copy(struct slice_mut_u8 dst, uint64_t at, struct slice_u8 src)
{
    uint64_t t4, t5, t19;

    t4 = at;
    t5 = 0u;
    UNROLL
    while (16u <= ((uint64_t)src.len - t5)) {
        t19 = load_8(src.ptr + (size_t)(t5 + 8u));
        store_8(dst.ptr + (size_t)t4, load_8(src.ptr + (size_t)t5));
        store_8(dst.ptr + (size_t)(t4 + 8u), t19);
        t4 = t4 + 16u;
        t5 = t5 + 16u;
    }
    while (t5 < (uint64_t)src.len) {
        dst.ptr[(size_t)t4] = src.ptr[(size_t)t5];
        t4 = t4 + 1u;
        t5 = t5 + 1u;
    }
}

/* Writes `n` bytes of `src` from index `from` on into `dst` from index `at` on. */
static inline void unit_alarms_list__list__keep(struct slice_mut_u8 dst, uint64_t at, struct slice_u8 src, uint64_t from,
        uint64_t n)
{
    base_codec__blocks__copy(dst, at, (struct slice_u8){src.ptr + (size_t)from, (size_t)((from + n) - from)});
}

/* Writes `v` as `k` bytes from index `at` on, byte by byte. */
static inline void base_codec__numbers__put_each_byte(struct slice_mut_u8 s, uint64_t at, uint64_t k, uint64_t v)
{
    uint64_t t5, t6, t7;

    t5 = v;
    t6 = at;
    t7 = k;
    while (0u < t7) {
        s.ptr[(size_t)t6] = (uint8_t)(t5 % 256u);
        t5 = t5 / 256u;
        t6 = t6 + 1u;
        t7 = t7 - 1u;
    }
}

/* Writes `v` as `k` bytes from index `at` on, and leaves the other bytes as they were. The widths in use compile to one store or
   two. */
static inline void base_codec__numbers__put_number_1(struct slice_mut_u8 s, uint64_t at, uint64_t v)
{
    base_codec__numbers__put_each_byte(s, at, 1u, v);
}

/* Writes `v` as `k` bytes from index `at` on, and leaves the other bytes as they were. The widths in use compile to one store or
   two. */
static inline void base_codec__numbers__put_number_4(struct slice_mut_u8 s, uint64_t at, uint64_t v)
{
    base_codec__numbers__put_each_byte(s, at, 4u, v);
}

/* Writes an alarm's bytes from index `at` on. */
static inline void unit_alarms_list__fields__put_alarm(struct slice_mut_u8 s, uint64_t at, struct unit_alarms_list__Alarm a)
{
    store_2(s.ptr + (size_t)at, a.identity);
    base_codec__numbers__put_number_1(s, at + 2u, a.class);
    base_codec__numbers__put_number_4(s, at + 3u, a.second);
}

/* Whether `a` goes before `b`: by class, then second, then identity. */
static inline bool unit_alarms_list__fields__goes_before(struct unit_alarms_list__Alarm a, struct unit_alarms_list__Alarm b)
{
    if (a.class != b.class) {
        return a.class < b.class;
    }
    if (a.second != b.second) {
        return a.second < b.second;
    }
    return a.identity < b.identity;
}

static inline struct unit_alarms_list__Alarm unit_alarms_list__fields__graver(struct unit_alarms_list__Alarm a,
        struct unit_alarms_list__Alarm b)
{
    bool t3;
    struct unit_alarms_list__Alarm t4;

    t3 = unit_alarms_list__fields__goes_before(b, a);
    if (t3) {
        t4 = b;
    } else {
        t4 = a;
    }
    return t4;
}

/* The gravest of the `n` alarms, three zeros if there is none. */
static inline struct unit_alarms_list__Alarm unit_alarms_list__list__gravest_of(struct slice_u8 s, uint64_t n)
{
    struct unit_alarms_list__Alarm t3;
    uint64_t t4, t5, t10, t119;

    if (n == 0u) {
        return (struct unit_alarms_list__Alarm){.identity = 0u, .class = 0u, .second = 0u};
    }
    t10 = load_8(s.ptr + 8u);
    t3 = (struct unit_alarms_list__Alarm){.identity = t10 % UINT64_C(0x10000), .class = (t10 / UINT64_C(0x10000)) % 256u,
            .second = (t10 / UINT64_C(0x1000000)) % UINT64_C(0x100000000)};
    t4 = 1u;
    t5 = 15u;
    while (t4 < n) {
        t119 = load_8(s.ptr + (size_t)t5);
        t3 = unit_alarms_list__fields__graver(t3, (struct unit_alarms_list__Alarm){.identity = t119 % UINT64_C(0x10000),
                .class = (t119 / UINT64_C(0x10000)) % 256u, .second = (t119 / UINT64_C(0x1000000)) % UINT64_C(0x100000000)});
        t4 = t4 + 1u;
        t5 = t5 + 7u;
    }
    return t3;
}

/* Puts the number and the gravest in front of the `n` alarms of `s`. */
static inline void unit_alarms_list__list__seal(struct slice_mut_u8 s, uint64_t n)
{
    struct unit_alarms_list__Alarm t3;

    t3 = unit_alarms_list__list__gravest_of((struct slice_u8){s.ptr, s.len}, n);
    base_codec__numbers__put_number_1(s, 0u, n);
    unit_alarms_list__fields__put_alarm(s, 1u, t3);
}

/* Makes `output` the bytes of the `n` alarms of `s` and one more behind them. */
static inline void unit_alarms_list__list__with_one(struct slice_mut_u8 output, struct slice_u8 s, uint64_t n,
        struct unit_alarms_list__Alarm a)
{
    base_codec__blocks__clear(output, 0u, 384u);
    unit_alarms_list__list__keep(output, 8u, s, 8u, 7u * n);
    unit_alarms_list__fields__put_alarm(output, 8u + (7u * n), a);
    unit_alarms_list__list__seal(output, n + 1u);
}

/* An arrival: 0 for done, 24 or 25. `output` gets the blocks of the new list; a refusal leaves it as it was. */
static inline uint64_t unit_alarms_list__arrive(struct slice_u8 list, struct slice_mut_u8 output, uint16_t identity,
        uint64_t class, uint32_t second)
{
    uint64_t t6, t9;
    bool t7;

    t7 = unit_alarms_list__fields__class_known(class);
    if (!t7) {
        return 24u;
    }
    t6 = unit_alarms_list__list__open_count(list);
    t9 = unit_alarms_list__list__find(list, t6, (uint64_t)identity);
    if (t9 < t6) {
        return 24u;
    }
    if (48u <= t6) {
        return 25u;
    }
    unit_alarms_list__list__with_one(output, list, t6, (struct unit_alarms_list__Alarm){.identity = (uint64_t)identity,
            .class = class, .second = (uint64_t)second});
    return 0u;
}

static inline struct call_ask__Reply kagutin__kagutin_transact(struct slice_mut_u8 log, struct slice_u8 area,
        struct slice_mut_u8 state, struct slice_mut_u8 newest, struct slice_u8 blocks, struct slice_mut_u8 batch, uint64_t writer,
        uint64_t home)
{
    struct kagutin_reply r = kagutin_transact(log.ptr, log.len, area.ptr, area.len, state.ptr, state.len, newest.ptr, newest.len,
            blocks.ptr, blocks.len, batch.ptr, batch.len, writer, home);

    return (struct call_ask__Reply){.code = (uint64_t)r.code, .figure = (uint64_t)r.figure, .size = (uint64_t)r.size};
}

/* Ends an event by its own answer: refused, or the unit's new blocks stored as one transaction. */
static inline struct call_ask__Reply unit_shared__finish(struct slice_mut_u8 log, struct slice_u8 area, struct slice_mut_u8 state,
        struct slice_mut_u8 newest, struct slice_u8 blocks, struct slice_mut_u8 batch, uint64_t writer, uint64_t home,
        uint64_t code)
{
    if (code != 0u) {
        return (struct call_ask__Reply){.code = code, .figure = 0u, .size = 0u};
    }
    return kagutin__kagutin_transact(log, area, state, newest, blocks, batch, writer, home);
}

/* An alarm arrives; the figure is the ticket of its commit. [S-70] */
static inline struct call_ask__Reply unit_alarms__kagutin_alarm_arrive(struct slice_mut_u8 log, struct slice_u8 area,
        struct slice_mut_u8 state, struct slice_mut_u8 newest, struct slice_mut_u8 batch, uint64_t writer, uint16_t identity,
        uint64_t class, uint32_t second)
{
    struct array_u8_384 t10, t11;
    struct call_ask__Reply t12;
    uint64_t t13;
    bool t14;

    t14 = unit_alarms_list__fields__class_known(class);
    if (!t14) {
        return (struct call_ask__Reply){.code = 24u, .figure = 0u, .size = 0u};
    }
    memset(&t10, 0u, sizeof t10);
    memset(&t11, 0u, sizeof t11);
    t12 = kagutin__kagutin_revise((struct slice_u8){log.ptr, log.len}, area, (struct slice_u8){state.ptr, state.len},
            (struct slice_u8){newest.ptr, newest.len}, (struct slice_mut_u8){t10.at, 384u}, writer, 24u);
    if (t12.code != 0u) {
        return (struct call_ask__Reply){.code = t12.code, .figure = 0u, .size = 0u};
    }
    t13 = unit_alarms_list__arrive((struct slice_u8){t10.at, 384u}, (struct slice_mut_u8){t11.at, 384u}, identity, class, second);
    return unit_shared__finish(log, area, state, newest, (struct slice_u8){t11.at, 384u}, batch, writer, 24u, t13);
}

/* Makes `output` the bytes of the `n` alarms of `s` but the one at place `i`. */
static inline void unit_alarms_list__list__without_one(struct slice_mut_u8 output, struct slice_u8 s, uint64_t n, uint64_t i)
{
    base_codec__blocks__clear(output, 0u, 384u);
    unit_alarms_list__list__keep(output, 8u, s, 8u, 7u * i);
    unit_alarms_list__list__keep(output, 8u + (7u * i), s, 15u + (7u * i), 7u * ((n - 1u) - i));
    unit_alarms_list__list__seal(output, n - 1u);
}

/* A clearing: 0 for done, or 24. `output` gets the blocks of the new list; a refusal leaves it as it was. */
static inline uint64_t unit_alarms_list__clear(struct slice_u8 list, struct slice_mut_u8 output, uint16_t identity)
{
    uint64_t t4, t5;

    t4 = unit_alarms_list__list__open_count(list);
    t5 = unit_alarms_list__list__find(list, t4, (uint64_t)identity);
    if (t4 <= t5) {
        return 24u;
    }
    unit_alarms_list__list__without_one(output, list, t4, t5);
    return 0u;
}

/* An alarm clears; the figure is the ticket of its commit. [S-70] */
static inline struct call_ask__Reply unit_alarms__kagutin_alarm_clear(struct slice_mut_u8 log, struct slice_u8 area,
        struct slice_mut_u8 state, struct slice_mut_u8 newest, struct slice_mut_u8 batch, uint64_t writer, uint16_t identity)
{
    struct array_u8_384 t8, t9;
    struct call_ask__Reply t10;
    uint64_t t11;

    memset(&t8, 0u, sizeof t8);
    memset(&t9, 0u, sizeof t9);
    t10 = kagutin__kagutin_revise((struct slice_u8){log.ptr, log.len}, area, (struct slice_u8){state.ptr, state.len},
            (struct slice_u8){newest.ptr, newest.len}, (struct slice_mut_u8){t8.at, 384u}, writer, 24u);
    if (t10.code != 0u) {
        return (struct call_ask__Reply){.code = t10.code, .figure = 0u, .size = 0u};
    }
    t11 = unit_alarms_list__clear((struct slice_u8){t8.at, 384u}, (struct slice_mut_u8){t9.at, 384u}, identity);
    return unit_shared__finish(log, area, state, newest, (struct slice_u8){t9.at, 384u}, batch, writer, 24u, t11);
}

static inline struct call_ask__Reply kagutin__kagutin_fetch(struct slice_u8 log, struct slice_u8 area, struct slice_u8 state,
        struct slice_u8 newest, struct slice_mut_u8 blocks, uint64_t writer, uint64_t home)
{
    struct kagutin_reply r = kagutin_fetch(log.ptr, log.len, area.ptr, area.len, state.ptr, state.len, newest.ptr, newest.len,
            blocks.ptr, blocks.len, writer, home);

    return (struct call_ask__Reply){.code = (uint64_t)r.code, .figure = (uint64_t)r.figure, .size = (uint64_t)r.size};
}

/* The gravest open alarm, as it is kept in the first home. [S-69] */
static inline struct unit_alarms__Gravest unit_alarms__kagutin_alarm_gravest(struct slice_u8 log, struct slice_u8 area,
        struct slice_u8 state, struct slice_u8 newest, uint64_t writer)
{
    struct array_u8_64 t6;
    struct call_ask__Reply t7;
    struct unit_alarms_list__Alarm t8;
    struct slice_u8 t15;
    uint64_t t17;

    memset(&t6, 0u, sizeof t6);
    t7 = kagutin__kagutin_fetch(log, area, state, newest, (struct slice_mut_u8){t6.at, 64u}, writer, 24u);
    if (t7.code != 0u) {
        return (struct unit_alarms__Gravest){.code = t7.code, .identity = 0u, .alarm_class = 0u, .second = 0u};
    }
    t15 = (struct slice_u8){t6.at, 64u};
    t17 = load_8(t15.ptr + 1u);
    t8 = (struct unit_alarms_list__Alarm){.identity = t17 % UINT64_C(0x10000), .class = (t17 / UINT64_C(0x10000)) % 256u,
            .second = (t17 / UINT64_C(0x1000000)) % UINT64_C(0x100000000)};
    return (struct unit_alarms__Gravest){.code = 0u, .identity = t8.identity, .alarm_class = t8.class, .second = t8.second};
}

struct kagutin_reply kagutin_alarm_arrive(uint8_t *log, size_t log_size, const uint8_t *area, size_t area_size, uint8_t *state,
        size_t state_size, uint8_t *newest, size_t newest_size, uint8_t *batch, size_t batch_size, uint64_t writer,
        uint16_t identity, uint64_t class, uint32_t second)
{
    ASK_BUFFERS(kagutin_reply, code, {log, log_size}, {area, area_size}, {state, state_size}, {newest, newest_size}, {batch,
            batch_size})
    struct call_ask__Reply r = unit_alarms__kagutin_alarm_arrive((struct slice_mut_u8){log, log_size}, (struct slice_u8){area,
            area_size}, (struct slice_mut_u8){state, state_size}, (struct slice_mut_u8){newest, newest_size},
            (struct slice_mut_u8){batch, batch_size}, writer, identity, class, second);

    return (struct kagutin_reply){.code = r.code, .figure = r.figure, .size = r.size};
}

struct kagutin_reply kagutin_alarm_clear(uint8_t *log, size_t log_size, const uint8_t *area, size_t area_size, uint8_t *state,
        size_t state_size, uint8_t *newest, size_t newest_size, uint8_t *batch, size_t batch_size, uint64_t writer,
        uint16_t identity)
{
    ASK_BUFFERS(kagutin_reply, code, {log, log_size}, {area, area_size}, {state, state_size}, {newest, newest_size}, {batch,
            batch_size})
    struct call_ask__Reply r = unit_alarms__kagutin_alarm_clear((struct slice_mut_u8){log, log_size}, (struct slice_u8){area,
            area_size}, (struct slice_mut_u8){state, state_size}, (struct slice_mut_u8){newest, newest_size},
            (struct slice_mut_u8){batch, batch_size}, writer, identity);

    return (struct kagutin_reply){.code = r.code, .figure = r.figure, .size = r.size};
}

struct kagutin_alarm kagutin_alarm_gravest(const uint8_t *log, size_t log_size, const uint8_t *area, size_t area_size,
        const uint8_t *state, size_t state_size, const uint8_t *newest, size_t newest_size, uint64_t writer)
{
    ASK_BUFFERS(kagutin_alarm, code, {log, log_size}, {area, area_size}, {state, state_size}, {newest, newest_size})
    struct unit_alarms__Gravest r = unit_alarms__kagutin_alarm_gravest((struct slice_u8){log, log_size}, (struct slice_u8){area,
            area_size}, (struct slice_u8){state, state_size}, (struct slice_u8){newest, newest_size}, writer);

    return (struct kagutin_alarm){.code = r.code, .identity = r.identity, .alarm_class = r.alarm_class, .second = r.second};
}
