/*
 * A driver that fails at each of its calls in turn, with errors that are easily
 * taken for something else, and is opened again in the same process. Of what
 * was written since the last fence, the failing write included, any words (or
 * blocks) land, at the load that follows or at a power cut. Arguments:
 * reopenings, and how load does its duty: kept, or as the store does not bear
 * it: cache (shows writes that lasting memory does not have) or late (lets them
 * arrive after it).
 */
/* Clauses: [S-75, S-77] */
#include <stdio.h>
#include <stdlib.h>
#include <string.h>

#include "kagutin_store.h"
#include "../common/play.h"

enum { GROUPS = 5, HOMES = 8, STEPS = 260, MOST_CALLS = 300, WORD = 8 };
enum { SIZE = 64 + 512 * GROUPS + 64 * HOMES, WORDS = SIZE / WORD };
enum duty { KEPT, CACHE, LATE };

static uint8_t memory[KGT_MEMORY_SIZE(GROUPS, HOMES)], scratch[KGT_FORMAT_SIZE(GROUPS, HOMES)];
static struct kagutin store;
static struct play play;

static struct {
    uint8_t lasting[SIZE], written[SIZE], late[SIZE];
    bool pending[WORDS], is_late[WORDS]; /* written since the last fence; to arrive after the next */
    size_t unit;                         /* bytes that arrive whole */
    enum duty duty;
    unsigned long calls_left; /* until one fails */
    int error;                /* with this */
    bool failed;
} medium;

static void check(bool right, const char *what, unsigned long at)
{
    if (right)
        return;
    printf("reopen_check: wrong: %s, at %lu, %lu bytes kept whole: %s\n", what, at, (unsigned long)medium.unit,
           play.wrong ? play.wrong : "");
    exit(1);
}

/* ---- the driver ---- */

static void land(size_t at)
{
    memcpy(medium.lasting + at, medium.written + at, medium.unit);
}

/* What has been written and not fenced arrives or never will, each unit by itself. */
static void resolve(void)
{
    size_t at;

    for (at = 0; at < SIZE; at += medium.unit) {
        if (!medium.pending[at / WORD])
            continue;
        medium.pending[at / WORD] = false;
        if (play_random(&play, 2))
            land(at);
        else if (medium.duty == LATE) {
            medium.is_late[at / WORD] = true;
            memcpy(medium.late + at, medium.written + at, medium.unit);
        }
        if (medium.duty != CACHE)
            memcpy(medium.written + at, medium.lasting + at, medium.unit);
    }
}

static void arrive_late(void)
{
    size_t at;

    for (at = 0; at < SIZE; at += medium.unit)
        if (medium.is_late[at / WORD]) {
            medium.is_late[at / WORD] = false;
            memcpy(medium.lasting + at, medium.late + at, medium.unit);
            memcpy(medium.written + at, medium.late + at, medium.unit);
        }
}

static void cut_power(void)
{
    resolve();
    memset(medium.is_late, 0, sizeof medium.is_late);
    memcpy(medium.written, medium.lasting, SIZE);
}

static int fails(void)
{
    if (medium.calls_left == 0 || --medium.calls_left > 0)
        return 0;
    medium.failed = true;
    return medium.error;
}

static size_t offset(enum kgt_area area, size_t at)
{
    return area == KGT_LOG ? at : KGT_LOG_SIZE(GROUPS) + at;
}

static int load(void *context, enum kgt_area area, size_t at, uint8_t *bytes, size_t size)
{
    (void)context;
    medium.failed = false;
    if (fails())
        return medium.error;
    resolve();
    memcpy(bytes, medium.written + offset(area, at), size);
    return 0;
}

static int write(void *context, enum kgt_area area, size_t at, const uint8_t *bytes, size_t size)
{
    size_t from = offset(area, at), i;

    (void)context;
    check(!medium.failed, "a write after a failure, without a load", from);
    memcpy(medium.written + from, bytes, size);
    for (i = 0; i < size; i += WORD)
        medium.pending[(from + i) / medium.unit * (medium.unit / WORD)] = true;
    return fails();
}

static int fence(void *context)
{
    size_t at;

    (void)context;
    check(!medium.failed, "a fence after a failure, without a load", 0);
    if (fails())
        return medium.error;
    for (at = 0; at < SIZE; at += medium.unit)
        if (medium.pending[at / WORD])
            land(at);
    memset(medium.pending, 0, sizeof medium.pending);
    arrive_late();
    return 0;
}

/* ---- the store on it ---- */

static void begin(bool blocks, enum duty duty)
{
    struct kgt_driver driver;

    memset(&medium, 0, sizeof medium);
    medium.unit = blocks ? KAGUTIN_BLOCK_SIZE : WORD;
    medium.duty = duty;
    driver.context = NULL;
    driver.load = load;
    driver.write = write;
    driver.fence = fence;
    driver.landing = blocks ? KGT_LANDS_BLOCKS : KGT_LANDS_WORDS;
    check(kgt_init(&store, memory, sizeof memory, GROUPS, HOMES, driver).code == KAGUTIN_DONE, "init", 0);
    check(kgt_format(&store, scratch, sizeof scratch).code == KAGUTIN_DONE, "format", 0);
    play_start(&play, &store, HOMES, 1);
}

/* After a failure every call is refused and none reaches the driver. */
static void check_shut(unsigned long at)
{
    uint8_t block[KAGUTIN_BLOCK_SIZE] = {0};

    check(kgt_begin(&store, 0).code == KGT_DRIVER_FAILED, "begin after a failure", at);
    check(kgt_store(&store, 0, 1, block).code == KGT_DRIVER_FAILED, "store after a failure", at);
    check(kgt_commit(&store, 0).code == KGT_DRIVER_FAILED, "commit after a failure", at);
    check(kgt_sync(&store).code == KGT_DRIVER_FAILED, "sync after a failure", at);
    check(kgt_maintain(&store, 1).code == KGT_DRIVER_FAILED, "maintain after a failure", at);
}

static struct {
    unsigned long done, failures;
} openings;

/* Opens the store again and works on it until the driver's call with this number fails. */
static void open_and_work(unsigned long calls, int error, unsigned long round)
{
    medium.calls_left = calls;
    medium.error = error;
    if (kgt_open(&store).code == KAGUTIN_DONE) {
        openings.done++;
        check(play_opened(&play), "an opening", round);
        play_work(&play, STEPS);
        check(!play.wrong, "work", round);
    }
    check(medium.failed == (medium.calls_left == 0), "a failure that is not told", round);
    openings.failures += medium.failed;
    if (medium.failed)
        check_shut(round);
    if (play_random(&play, 4) == 0)
        cut_power();
}

/* Each call fails in turn, with each error; every other time it is one of the first, as inside the opening. */
static void check_reopenings(unsigned long rounds)
{
    static const int errors[] = {1, -5, INT32_MAX};
    unsigned long round;

    memset(&openings, 0, sizeof openings);
    for (round = 0; round < rounds; round++)
        if (round % 2)
            open_and_work(1 + play_random(&play, 30), errors[play_random(&play, 3)], round);
        else
            open_and_work(1 + round / 6 % MOST_CALLS, errors[round / 2 % 3], round);
    medium.calls_left = 0;
    check(kgt_open(&store).code == KAGUTIN_DONE && play_opened(&play), "the last opening", round);
    printf("reopen_check: %s kept whole: opened %lu times, %lu done, %lu failures, %llu commits\n",
           medium.unit == WORD ? "words" : "blocks", rounds, openings.done, openings.failures,
           (unsigned long long)play.committed);
}

int main(int count, char **words)
{
    unsigned long rounds = count > 1 ? strtoul(words[1], NULL, 10) : 10000;
    const char *duty = count > 2 ? words[2] : "kept";
    int blocks;

    for (blocks = 0; blocks < 2; blocks++) {
        begin(blocks == 1, strcmp(duty, "cache") == 0 ? CACHE : strcmp(duty, "late") == 0 ? LATE : KEPT);
        check_reopenings(rounds);
    }
    puts("reopen_check: right");
    return 0;
}
