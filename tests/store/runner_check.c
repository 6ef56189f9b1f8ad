/*
 * The object's runner (kgt_run), which asks the proved call, beside one that is
 * written by hand (hand_runner.h): on words and on blocks both make the same
 * driver calls with the same bytes, and refuse the same damaged batches. First
 * over random batches, in which up to all groups wait for their first words; then
 * over histories of calls with cuts, drivers that fail, openings and formats.
 */
/* Clauses: [S-57, S-82, S-85] */
#include <stdio.h>
#include <string.h>

#include "kagutin_memory.h"
#include "runner_trace.h"

enum { GROUPS = 24, HOMES = 12, BATCHES = 20000, HISTORIES = 5000, CALLS = 200, NEXT = 24 };

static uint8_t log_copy[KGT_LOG_SIZE(GROUPS)], area[KGT_HOMES_SIZE(HOMES)], state[KAGUTIN_STATE_SIZE];
static uint8_t newest[KGT_NEWEST_SIZE(HOMES)], batch[KGT_FORMAT_SIZE(GROUPS, HOMES)];
static struct both both;
static size_t size;

/* ---- random batches ---- */

static uint64_t next, fenced; /* the next group; all below this one have their first words */

static void fill(uint8_t *bytes, size_t count)
{
    while (count-- > 0)
        *bytes++ = (uint8_t)random_below(256);
}

static void put_number(uint8_t *bytes, uint64_t number, size_t count)
{
    for (; count-- > 0; number >>= 8)
        *bytes++ = (uint8_t)number;
}

/* A record's mark and, if it has one, its place; the bytes behind them. */
static uint8_t *put_record(const char *mark, bool has_place, uint64_t place, size_t count)
{
    uint8_t *bytes = batch + size;

    memcpy(bytes, mark, 2);
    if (has_place)
        put_number(bytes + 2, place, 2);
    size += (has_place ? 4u : 2u) + count;
    return bytes + (has_place ? 4 : 2);
}

/* The next group, as the log copy has it, unless all wait. */
static void put_group(void)
{
    uint8_t *group = log_copy + KGT_LOG_SIZE(next % GROUPS);

    if (next - fenced >= GROUPS)
        return;
    fill(group, KAGUTIN_GROUP_SIZE);
    memcpy(group, "\x50\x47", 2);
    put_number(group + 2, next, 6);
    memcpy(put_record("GW", true, next % GROUPS, KAGUTIN_GROUP_SIZE), group, KAGUTIN_GROUP_SIZE);
    next++;
}

static void put_homes(uint64_t count)
{
    while (count-- > 0)
        fill(put_record("HW", true, random_below(HOMES), KAGUTIN_BLOCK_SIZE), KAGUTIN_BLOCK_SIZE);
}

static void put_header(bool marked)
{
    uint8_t *bytes = put_record("KW", false, 0, KAGUTIN_HEADER_SIZE);

    memset(bytes, 0, KAGUTIN_HEADER_SIZE);
    if (marked)
        fill(bytes, 16);
}

static void put_fence(void)
{
    put_record("FN", false, 0, 0);
    fenced = next;
}

/* As an opening or a format has it: a header, every group blank. */
static void put_opening(bool marked)
{
    unsigned slot;

    put_homes(random_below(4));
    put_fence();
    put_header(marked);
    put_fence();
    for (slot = 0; slot < GROUPS; slot++)
        memset(put_record("GW", true, slot, KAGUTIN_GROUP_SIZE), 0, KAGUTIN_GROUP_SIZE);
    put_fence();
}

static void put_batch(void)
{
    size = 0;
    switch (random_below(24)) {
    default: put_group(); break;
    case 0:
        put_group();
        put_fence();
        break;
    case 1:
        put_homes(random_below(9));
        put_fence();
        break;
    case 2:
        put_header(true);
        put_fence();
        break;
    case 3:
        put_group();
        put_homes(random_below(4));
        put_group();
        put_fence();
        put_header(true);
        put_fence();
        break;
    case 4: put_opening(random_below(2) != 0); break;
    }
    put_number(state + NEXT, next, 8);
}

/* One bit, or the end, of one batch in fifty. */
static bool damage(void)
{
    if (random_below(50) != 0 || size == 0)
        return false;
    if (random_below(2) != 0)
        batch[random_below(size)] ^= (uint8_t)(1u << random_below(8));
    else
        size -= 1 + (size_t)random_below(size < 3 ? size : 3);
    return true;
}

/* As behind an opening: no first word waits. */
static void begin_batches(enum kgt_landing landing)
{
    both_init(&both, NULL, landing, log_copy, state, GROUPS, HOMES);
    both.proved.headed = fenced = next;
}

/* Behind a damaged batch both begin anew: first words in it may be others than the copy has. */
static void check_batches(enum kgt_landing landing)
{
    unsigned long i;

    begin_batches(landing);
    for (i = 0; i < BATCHES; i++) {
        bool damaged;

        put_batch();
        damaged = damage();
        if (both_run(&both, batch, size, UINT64_MAX, i) != 0 && !damaged)
            wrong("a batch is refused", i);
        if (damaged)
            begin_batches(landing);
        else
            both_same(i);
    }
}

/* ---- what is no batch ---- */

/* Refused with the cursor as it was asked, and nothing else. */
static void refused(const char *mark, uint64_t place, size_t count, uint64_t landing, uint64_t slots, uint64_t at)
{
    struct kagutin_action now, none = {KAGUTIN_REFUSED, 0, 0, 0, 0, 0, 0, 5, 0};

    memset(batch, 0, sizeof batch);
    memcpy(batch, mark, 2);
    put_number(batch + 2, place, 2);
    none.at = at;
    now = kagutin_next_action(batch, count, landing, slots, HOMES, 7, at, 5, 0);
    if (memcmp(&now, &none, sizeof now) != 0)
        wrong("what is no batch is handed out", (unsigned long)count);
}

static void check_refusals(void)
{
    static const char *const marks[] = {"GX", "HX", "KX", "FX", "XW", "XN"};
    unsigned i;

    for (i = 0; i < sizeof marks / sizeof marks[0]; i++)
        refused(marks[i], 0, KAGUTIN_GW_SIZE, KGT_LANDS_WORDS, GROUPS, 0);
    refused("FN", 0, KAGUTIN_FN_SIZE, 2, GROUPS, 0);
    refused("FN", 0, KAGUTIN_FN_SIZE, KGT_LANDS_WORDS, 0, 0);
    refused("FN", 0, KAGUTIN_FN_SIZE, KGT_LANDS_WORDS, KAGUTIN_MAX_GROUPS + 1, 0);
    refused("FN", 0, KAGUTIN_FN_SIZE, KGT_LANDS_WORDS, GROUPS, 3);
    refused("FN", 0, 1, KGT_LANDS_WORDS, GROUPS, 0);
    refused("GW", 0, KAGUTIN_GW_SIZE - 1, KGT_LANDS_WORDS, GROUPS, 0);
    refused("GW", GROUPS, KAGUTIN_GW_SIZE, KGT_LANDS_WORDS, GROUPS, 0);
    refused("HW", 0, KAGUTIN_HW_SIZE - 1, KGT_LANDS_BLOCKS, GROUPS, 0);
    refused("HW", HOMES, KAGUTIN_HW_SIZE, KGT_LANDS_BLOCKS, GROUPS, 0);
    refused("KW", 0, KAGUTIN_KW_SIZE - 1, KGT_LANDS_BLOCKS, GROUPS, 0);
    if (kagutin_next_action(batch, 2, KGT_LANDS_WORDS, GROUPS, HOMES, 7, 2, 8, 0).kind != KAGUTIN_REFUSED
        || kagutin_next_action(batch, 2, KGT_LANDS_WORDS, GROUPS, HOMES, 7, 2, 5, 3).kind != KAGUTIN_REFUSED)
        wrong("a cursor that no batch has", 0);
    if (kagutin_next_action(batch, 2, KGT_LANDS_WORDS, GROUPS, HOMES, 7, 2, 5, 0).kind != KAGUTIN_ALL_DONE)
        wrong("a batch that is done", 0);
}

/* ---- histories ---- */

#define AREAS log_copy, KGT_LOG_SIZE(groups), area, sizeof area
#define STATE state, sizeof state
#define NEWEST newest, sizeof newest
#define BATCH batch, sizeof batch

static uint8_t lasting[KGT_LOG_SIZE(GROUPS) + KGT_HOMES_SIZE(HOMES)], written[sizeof lasting];
static struct kgt_memory medium;
static struct kgt_driver driver;
static size_t groups;
static unsigned long failures, openings;

static bool by_chance(void *context, size_t at)
{
    (void)context, (void)at;
    return random_below(4) != 0;
}

/* Runs the batch of a done call; one in a hundred meets a driver's call that fails. */
static bool run(struct kagutin_reply reply, unsigned long at)
{
    uint64_t fails = random_below(100) == 0 ? random_below(6) : UINT64_MAX;
    bool done;

    if (reply.code != KAGUTIN_DONE)
        return true;
    done = both_run(&both, batch, (size_t)reply.size, fails, at) == 0;
    both_same(at);
    failures += !done;
    return done;
}

static void begin_anew(void)
{
    both_init(&both, &driver, driver.landing, log_copy, state, groups, HOMES);
}

/* Until an opening is done: after a cut, or a failure, in which any words or blocks since the last fence arrive. */
static void open_again(unsigned long at)
{
    struct kagutin_reply reply;

    do {
        kgt_memory_cut(&medium, by_chance, NULL);
        begin_anew();
        if (driver.load(driver.context, KGT_LOG, 0, log_copy, KGT_LOG_SIZE(groups)) != 0
            || driver.load(driver.context, KGT_HOMES, 0, area, sizeof area) != 0)
            wrong("a load", at);
        reply = kagutin_open(AREAS, STATE, NEWEST, BATCH);
        if (reply.code != KAGUTIN_DONE)
            wrong("an opening", at);
        openings++;
    } while (!run(reply, at));
}

static void format(unsigned long at)
{
    do
        begin_anew();
    while (!run(kagutin_format(AREAS, BATCH), at));
}

/* One call; its batch is run. False: the driver failed. */
static bool call(unsigned long at)
{
    static const uint8_t block[KAGUTIN_BLOCK_SIZE] = {7};
    uint64_t writer = random_below(3), home = 1 + random_below(7), choice = random_below(40);

    if (choice < 8)
        return run(kagutin_begin(AREAS, STATE, writer), at);
    if (choice < 24)
        return run(kagutin_store(AREAS, STATE, block, sizeof block, BATCH, writer, home), at);
    if (choice < 32)
        return run(kagutin_commit(AREAS, STATE, NEWEST, BATCH, writer), at);
    switch (choice) {
    case 32: return run(kagutin_abort(AREAS, STATE, writer), at);
    case 33: return run(kagutin_flush(AREAS, STATE, BATCH), at) && run(kagutin_confirm(AREAS, STATE), at);
    case 34: return run(kagutin_settle(AREAS, STATE, BATCH), at);
    case 35: return run(kagutin_begin_round(AREAS, STATE), at) && run(kagutin_step_round(AREAS, STATE, BATCH, 2), at);
    case 36: return run(kagutin_step_round(AREAS, STATE, BATCH, 3), at);
    case 37:
    case 38: return run(kagutin_trim(AREAS, STATE, NEWEST, BATCH), at);
    default: return random_below(8) != 0; /* a cut */
    }
}

static void check_histories(enum kgt_landing landing)
{
    unsigned long history, i;

    for (history = 0; history < HISTORIES; history++) {
        groups = 4 + (size_t)random_below(GROUPS - 3);
        memset(lasting, 0xA5, sizeof lasting);
        kgt_memory_init(&medium, lasting, written, groups, HOMES);
        if (landing == KGT_LANDS_BLOCKS)
            kgt_memory_keep_blocks(&medium);
        driver = kgt_memory_driver(&medium);
        format(history);
        open_again(history);
        for (i = 0; i < CALLS; i++)
            if (!call(history))
                open_again(history);
    }
}

int main(void)
{
    check_refusals();
    check_batches(KGT_LANDS_WORDS);
    check_batches(KGT_LANDS_BLOCKS);
    printf("runner_check: random batches: the same driver calls, %lu, of them %lu first words\n", traced_calls, traced_words);
    traced_calls = traced_words = 0;
    check_histories(KGT_LANDS_WORDS);
    check_histories(KGT_LANDS_BLOCKS);
    printf("runner_check: %d histories: the same driver calls, %lu, of them %lu first words; %lu openings, %lu failures\n",
           2 * HISTORIES, traced_calls, traced_words, openings, failures);
    return 0;
}
