/*
 * Kagutin as one C99 file, made by port/generate.py from the proved program.
 * Do not edit: change the sources under crates/ and run `make dist`.
 *
 * Needs kagutin_chains.h and kagutin_hours.h, memcpy and memset; no heap, no other library but that of kagutin, no state
 * of its own. All that is not declared there is static. Where a compiler is
 * known, some helpers have a quicker form; -DKAGUTIN_PLAIN_C leaves them out.
 */
#include <stdbool.h>
#include <stddef.h>
#include <stdint.h>
#include <string.h>

#include "kagutin_chains.h"
#include "kagutin_hours.h"

#if defined(__GNUC__) && !defined(__clang__) && SIZE_MAX < UINT64_MAX
/* Counts are 64 bits wide and proved to stay in memory; gcc warns of turns that they never reach. */
#pragma GCC diagnostic ignored "-Waggressive-loop-optimizations"
#endif

struct slice_u8 {
    const uint8_t *ptr;
    size_t len;
};

struct slice_mut_u8 {
    uint8_t *ptr;
    size_t len;
};

struct call_ask__Reply {
    uint64_t code;
    uint64_t figure;
    uint64_t size;
};

struct unit_hours_book__Pump {
    uint64_t starts;
    uint64_t total;
    uint64_t last;
    bool running;
};

struct unit_hours__Hours {
    uint64_t code;
    uint64_t starts;
    uint64_t seconds;
};

struct array_u8_64 {
    uint8_t at[64];
};

struct unit_hours__Services {
    uint64_t code;
    uint64_t due;
    uint64_t left;
};

struct unit_hours_book__Due {
    uint64_t services;
    uint64_t left;
};

/* With -DKAGUTIN_CHECK_BUFFERS every call answers 63 (KAGUTIN_BAD_BUFFERS), with zeros in all other fields, if a lent pointer is null or
   two lent buffers share a byte. Without it nothing is asked. */
#ifdef KAGUTIN_CHECK_BUFFERS
struct lent {
    const void *ptr;
    size_t size;
};

static bool are_apart(const struct lent *lent, size_t count)
{
    size_t i, j;

    for (i = 0; i < count; i++) {
        uintptr_t a = (uintptr_t)lent[i].ptr;

        if (lent[i].ptr == NULL || lent[i].size > UINTPTR_MAX - a)
            return false;
        for (j = 0; j < i; j++) {
            uintptr_t b = (uintptr_t)lent[j].ptr;

            if (lent[i].size != 0 && lent[j].size != 0 && a < b + lent[j].size && b < a + lent[i].size)
                return false;
        }
    }
    return true;
}

#define ASK_BUFFERS(result, answer, ...) \
    do { \
        const struct lent all_lent[] = {__VA_ARGS__}; \
        if (!are_apart(all_lent, sizeof all_lent / sizeof all_lent[0])) \
            return (struct result){.answer = 63u}; \
    } while (0);
#else
#define ASK_BUFFERS(result, answer, ...)
#endif

static inline struct call_ask__Reply kagutin__kagutin_fetch(struct slice_u8 log, struct slice_u8 area, struct slice_u8 state,
        struct slice_u8 newest, struct slice_mut_u8 blocks, uint64_t writer, uint64_t home)
{
    struct kagutin_reply r = kagutin_fetch(log.ptr, log.len, area.ptr, area.len, state.ptr, state.len, newest.ptr, newest.len,
            blocks.ptr, blocks.len, writer, home);

    return (struct call_ask__Reply){.code = (uint64_t)r.code, .figure = (uint64_t)r.figure, .size = (uint64_t)r.size};
}

/* The number that the `k` bytes from index `at` on make, read byte by byte. */
static inline uint64_t base_codec__numbers__each_byte(struct slice_u8 s, uint64_t at, uint64_t k)
{
    uint64_t t4, t5, t6;

    t4 = 0u;
    t5 = at + k;
    t6 = 0u;
    while (t6 < k) {
        t5 = t5 - 1u;
        t4 = (t4 * 256u) + (uint64_t)s.ptr[(size_t)t5];
        t6 = t6 + 1u;
    }
    return t4;
}

/* The number that the `k` bytes from index `at` on make; it fits `k` bytes. The widths in use compile to one load or two. */
static inline uint64_t base_codec__numbers__number_4(struct slice_u8 s, uint64_t at)
{
    return base_codec__numbers__each_byte(s, at, 4u);
}

/* The number that the `k` bytes from index `at` on make; it fits `k` bytes. The widths in use compile to one load or two. */
static inline uint64_t base_codec__numbers__number_1(struct slice_u8 s, uint64_t at)
{
    return base_codec__numbers__each_byte(s, at, 1u);
}

/* Reads a pump's block. */
static inline struct unit_hours_book__Pump unit_hours_book__read(struct slice_u8 block)
{
    uint64_t t2, t3, t4, t6;

    t2 = base_codec__numbers__number_4(block, 0u);
    t3 = base_codec__numbers__number_4(block, 4u);
    t4 = base_codec__numbers__number_4(block, 8u);
    t6 = base_codec__numbers__number_1(block, 12u);
    return (struct unit_hours_book__Pump){.starts = t2, .total = t3, .last = t4, .running = t6 != 0u};
}

/* Starts of a pump and the seconds of its finished runs. [S-67] */
static inline struct unit_hours__Hours unit_hours__kagutin_pump_hours(struct slice_u8 log, struct slice_u8 area,
        struct slice_u8 state, struct slice_u8 newest, uint64_t writer, uint64_t pump)
{
    struct array_u8_64 t7;
    struct call_ask__Reply t8;
    struct unit_hours_book__Pump t9;

    if (7u < pump) {
        return (struct unit_hours__Hours){.code = 14u, .starts = 0u, .seconds = 0u};
    }
    memset(&t7, 0u, sizeof t7);
    t8 = kagutin__kagutin_fetch(log, area, state, newest, (struct slice_mut_u8){t7.at, 64u}, writer, 16u + pump);
    if (t8.code != 0u) {
        return (struct unit_hours__Hours){.code = t8.code, .starts = 0u, .seconds = 0u};
    }
    t9 = unit_hours_book__read((struct slice_u8){t7.at, 64u});
    return (struct unit_hours__Hours){.code = 0u, .starts = t9.starts, .seconds = t9.total};
}

/* Whole services due of a pump, one each `interval` seconds of finished runs, and the seconds left over. [S-67] */
static inline struct unit_hours__Services unit_hours__kagutin_pump_services(struct slice_u8 log, struct slice_u8 area,
        struct slice_u8 state, struct slice_u8 newest, uint64_t writer, uint64_t pump, uint64_t interval)
{
    struct unit_hours__Hours t8;
    struct unit_hours_book__Due t9;

    if (interval == 0u) {
        return (struct unit_hours__Services){.code = 14u, .due = 0u, .left = 0u};
    }
    t8 = unit_hours__kagutin_pump_hours(log, area, state, newest, writer, pump);
    if (t8.code != 0u) {
        return (struct unit_hours__Services){.code = t8.code, .due = 0u, .left = 0u};
    }
    t9 = (struct unit_hours_book__Due){.services = t8.seconds / interval, .left = t8.seconds % interval};
    return (struct unit_hours__Services){.code = 0u, .due = t9.services, .left = t9.left};
}

static inline struct call_ask__Reply kagutin__kagutin_revise(struct slice_u8 log, struct slice_u8 area, struct slice_u8 state,
        struct slice_u8 newest, struct slice_mut_u8 blocks, uint64_t writer, uint64_t home)
{
    struct kagutin_reply r = kagutin_revise(log.ptr, log.len, area.ptr, area.len, state.ptr, state.len, newest.ptr, newest.len,
            blocks.ptr, blocks.len, writer, home);

    return (struct call_ask__Reply){.code = (uint64_t)r.code, .figure = (uint64_t)r.figure, .size = (uint64_t)r.size};
}

/* 16 for a second before the last event or a figure past 32 bits, else 0. */
static inline uint64_t unit_hours_book__late(struct unit_hours_book__Pump p, uint64_t second, uint64_t figure)
{
    uint64_t t5;

    if (second < p.last) {
        return 16u;
    }
    if (figure < UINT64_C(0x100000000)) {
        t5 = 0u;
    } else {
        t5 = 16u;
    }
    return t5;
}

/* Writes `n` zeros from index `at` on, and leaves the other bytes as they were. */
static inline void base_codec__blocks__clear(struct slice_mut_u8 dst, uint64_t at, uint64_t n)
{
    uint64_t t4, t5;

    t4 = at;
    t5 = n;
    while (0u < t5) {
        dst.ptr[(size_t)t4] = 0u;
        t4 = t4 + 1u;
        t5 = t5 - 1u;
    }
}

/* Writes `v` as `k` bytes from index `at` on, byte by byte. */
static inline void base_codec__numbers__put_each_byte(struct slice_mut_u8 s, uint64_t at, uint64_t k, uint64_t v)
{
    uint64_t t5, t6, t7;

    t5 = v;
    t6 = at;
    t7 = k;
    while (0u < t7) {
        s.ptr[(size_t)t6] = (uint8_t)(t5 % 256u);
        t5 = t5 / 256u;
        t6 = t6 + 1u;
        t7 = t7 - 1u;
    }
}

/* Writes `v` as `k` bytes from index `at` on, and leaves the other bytes as they were. The widths in use compile to one store or
   two. */
static inline void base_codec__numbers__put_number_4(struct slice_mut_u8 s, uint64_t at, uint64_t v)
{
    base_codec__numbers__put_each_byte(s, at, 4u, v);
}

static inline uint64_t unit_hours_book__flag(bool running)
{
    uint64_t t3;

    if (running) {
        t3 = 1u;
    } else {
        t3 = 0u;
    }
    return t3;
}

/* Writes `v` as `k` bytes from index `at` on, and leaves the other bytes as they were. The widths in use compile to one store or
   two. */
static inline void base_codec__numbers__put_number_1(struct slice_mut_u8 s, uint64_t at, uint64_t v)
{
    base_codec__numbers__put_each_byte(s, at, 1u, v);
}

/* Makes `block` that of the record `p`. */
static inline void unit_hours_book__write(struct slice_mut_u8 block, struct unit_hours_book__Pump p)
{
    uint64_t t14;

    base_codec__blocks__clear(block, 0u, 64u);
    base_codec__numbers__put_number_4(block, 0u, p.starts);
    base_codec__numbers__put_number_4(block, 4u, p.total);
    base_codec__numbers__put_number_4(block, 8u, p.last);
    t14 = unit_hours_book__flag(p.running);
    base_codec__numbers__put_number_1(block, 12u, t14);
}

/* A start of the pump whose block is lent: 0 for done, 15 or 16; a refusal leaves the block as it was. */
static inline uint64_t unit_hours_book__start(struct slice_mut_u8 block, uint32_t second)
{
    struct unit_hours_book__Pump t3;
    uint64_t t4;

    t3 = unit_hours_book__read((struct slice_u8){block.ptr, block.len});
    if (t3.running) {
        return 15u;
    }
    t4 = unit_hours_book__late(t3, (uint64_t)second, t3.starts + 1u);
    if (t4 != 0u) {
        return t4;
    }
    unit_hours_book__write(block, (struct unit_hours_book__Pump){.starts = t3.starts + 1u, .total = t3.total,
            .last = (uint64_t)second, .running = true});
    return 0u;
}

static inline struct call_ask__Reply kagutin__kagutin_transact(struct slice_mut_u8 log, struct slice_u8 area,
        struct slice_mut_u8 state, struct slice_mut_u8 newest, struct slice_u8 blocks, struct slice_mut_u8 batch, uint64_t writer,
        uint64_t home)
{
    struct kagutin_reply r = kagutin_transact(log.ptr, log.len, area.ptr, area.len, state.ptr, state.len, newest.ptr, newest.len,
            blocks.ptr, blocks.len, batch.ptr, batch.len, writer, home);

    return (struct call_ask__Reply){.code = (uint64_t)r.code, .figure = (uint64_t)r.figure, .size = (uint64_t)r.size};
}

/* Ends an event by its own answer: refused, or the unit's new blocks stored as one transaction. */
static inline struct call_ask__Reply unit_shared__finish(struct slice_mut_u8 log, struct slice_u8 area, struct slice_mut_u8 state,
        struct slice_mut_u8 newest, struct slice_u8 blocks, struct slice_mut_u8 batch, uint64_t writer, uint64_t home,
        uint64_t code)
{
    if (code != 0u) {
        return (struct call_ask__Reply){.code = code, .figure = 0u, .size = 0u};
    }
    return kagutin__kagutin_transact(log, area, state, newest, blocks, batch, writer, home);
}

/* A start of a pump at a second; the figure is the ticket of its commit. [S-68] */
static inline struct call_ask__Reply unit_hours__kagutin_pump_start(struct slice_mut_u8 log, struct slice_u8 area,
        struct slice_mut_u8 state, struct slice_mut_u8 newest, struct slice_mut_u8 batch, uint64_t writer, uint64_t pump,
        uint32_t second)
{
    struct array_u8_64 t9;
    uint64_t t10, t12;
    struct call_ask__Reply t11;

    if (7u < pump) {
        return (struct call_ask__Reply){.code = 14u, .figure = 0u, .size = 0u};
    }
    memset(&t9, 0u, sizeof t9);
    t10 = 16u + pump;
    t11 = kagutin__kagutin_revise((struct slice_u8){log.ptr, log.len}, area, (struct slice_u8){state.ptr, state.len},
            (struct slice_u8){newest.ptr, newest.len}, (struct slice_mut_u8){t9.at, 64u}, writer, t10);
    if (t11.code != 0u) {
        return (struct call_ask__Reply){.code = t11.code, .figure = 0u, .size = 0u};
    }
    t12 = unit_hours_book__start((struct slice_mut_u8){t9.at, 64u}, second);
    return unit_shared__finish(log, area, state, newest, (struct slice_u8){t9.at, 64u}, batch, writer, t10, t12);
}

/* The total with a run that ends now. */
static inline uint64_t unit_hours_book__total_at(struct unit_hours_book__Pump p, uint64_t second)
{
    if (p.last < second) {
        return p.total + (second - p.last);
    }
    return p.total;
}

/* A stop of the pump whose block is lent, answered as a start is. */
static inline uint64_t unit_hours_book__stop(struct slice_mut_u8 block, uint32_t second)
{
    struct unit_hours_book__Pump t3;
    uint64_t t4, t5;

    t3 = unit_hours_book__read((struct slice_u8){block.ptr, block.len});
    if (!t3.running) {
        return 15u;
    }
    t4 = unit_hours_book__total_at(t3, (uint64_t)second);
    t5 = unit_hours_book__late(t3, (uint64_t)second, t4);
    if (t5 != 0u) {
        return t5;
    }
    unit_hours_book__write(block, (struct unit_hours_book__Pump){.starts = t3.starts, .total = t4, .last = (uint64_t)second,
            .running = false});
    return 0u;
}

/* A stop of a pump at a second, answered as a start is. [S-68] */
static inline struct call_ask__Reply unit_hours__kagutin_pump_stop(struct slice_mut_u8 log, struct slice_u8 area,
        struct slice_mut_u8 state, struct slice_mut_u8 newest, struct slice_mut_u8 batch, uint64_t writer, uint64_t pump,
        uint32_t second)
{
    struct array_u8_64 t9;
    uint64_t t10, t12;
    struct call_ask__Reply t11;

    if (7u < pump) {
        return (struct call_ask__Reply){.code = 14u, .figure = 0u, .size = 0u};
    }
    memset(&t9, 0u, sizeof t9);
    t10 = 16u + pump;
    t11 = kagutin__kagutin_revise((struct slice_u8){log.ptr, log.len}, area, (struct slice_u8){state.ptr, state.len},
            (struct slice_u8){newest.ptr, newest.len}, (struct slice_mut_u8){t9.at, 64u}, writer, t10);
    if (t11.code != 0u) {
        return (struct call_ask__Reply){.code = t11.code, .figure = 0u, .size = 0u};
    }
    t12 = unit_hours_book__stop((struct slice_mut_u8){t9.at, 64u}, second);
    return unit_shared__finish(log, area, state, newest, (struct slice_u8){t9.at, 64u}, batch, writer, t10, t12);
}

struct kagutin_hours kagutin_pump_hours(const uint8_t *log, size_t log_size, const uint8_t *area, size_t area_size,
        const uint8_t *state, size_t state_size, const uint8_t *newest, size_t newest_size, uint64_t writer, uint64_t pump)
{
    ASK_BUFFERS(kagutin_hours, code, {log, log_size}, {area, area_size}, {state, state_size}, {newest, newest_size})
    struct unit_hours__Hours r = unit_hours__kagutin_pump_hours((struct slice_u8){log, log_size}, (struct slice_u8){area,
            area_size}, (struct slice_u8){state, state_size}, (struct slice_u8){newest, newest_size}, writer, pump);

    return (struct kagutin_hours){.code = r.code, .starts = r.starts, .seconds = r.seconds};
}

struct kagutin_services kagutin_pump_services(const uint8_t *log, size_t log_size, const uint8_t *area, size_t area_size,
        const uint8_t *state, size_t state_size, const uint8_t *newest, size_t newest_size, uint64_t writer, uint64_t pump,
        uint64_t interval)
{
    ASK_BUFFERS(kagutin_services, code, {log, log_size}, {area, area_size}, {state, state_size}, {newest, newest_size})
    struct unit_hours__Services r = unit_hours__kagutin_pump_services((struct slice_u8){log, log_size}, (struct slice_u8){area,
            area_size}, (struct slice_u8){state, state_size}, (struct slice_u8){newest, newest_size}, writer, pump, interval);

    return (struct kagutin_services){.code = r.code, .due = r.due, .left = r.left};
}

struct kagutin_reply kagutin_pump_start(uint8_t *log, size_t log_size, const uint8_t *area, size_t area_size, uint8_t *state,
        size_t state_size, uint8_t *newest, size_t newest_size, uint8_t *batch, size_t batch_size, uint64_t writer, uint64_t pump,
        uint32_t second)
{
    ASK_BUFFERS(kagutin_reply, code, {log, log_size}, {area, area_size}, {state, state_size}, {newest, newest_size}, {batch,
            batch_size})
    struct call_ask__Reply r = unit_hours__kagutin_pump_start((struct slice_mut_u8){log, log_size}, (struct slice_u8){area,
            area_size}, (struct slice_mut_u8){state, state_size}, (struct slice_mut_u8){newest, newest_size},
            (struct slice_mut_u8){batch, batch_size}, writer, pump, second);

    return (struct kagutin_reply){.code = r.code, .figure = r.figure, .size = r.size};
}

struct kagutin_reply kagutin_pump_stop(uint8_t *log, size_t log_size, const uint8_t *area, size_t area_size, uint8_t *state,
        size_t state_size, uint8_t *newest, size_t newest_size, uint8_t *batch, size_t batch_size, uint64_t writer, uint64_t pump,
        uint32_t second)
{
    ASK_BUFFERS(kagutin_reply, code, {log, log_size}, {area, area_size}, {state, state_size}, {newest, newest_size}, {batch,
            batch_size})
    struct call_ask__Reply r = unit_hours__kagutin_pump_stop((struct slice_mut_u8){log, log_size}, (struct slice_u8){area,
            area_size}, (struct slice_mut_u8){state, state_size}, (struct slice_mut_u8){newest, newest_size},
            (struct slice_mut_u8){batch, batch_size}, writer, pump, second);

    return (struct kagutin_reply){.code = r.code, .figure = r.figure, .size = r.size};
}
