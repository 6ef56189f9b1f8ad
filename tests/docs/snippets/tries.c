#include "tries.h"

#include <limits.h>

#include "kagutin_memory.h"

static struct {
    struct try_case now;
    unsigned long tries, checks;
} at;

/* ---- all cases ---- */

void try_check(bool right, const char *what)
{
    at.checks++;
    if (right)
        return;
    printf("wrong: %s; driver's call %lu fails by %d%s, log %d, landing %d, lands %d\n", what, at.now.call, at.now.error,
           at.now.for_good ? " for good" : "", (int)at.now.log, (int)at.now.landing, (int)at.now.lands);
    exit(1);
}

static bool once(bool (*attempt)(const struct try_case *now), unsigned long call)
{
    int lands;
    bool met = false;

    at.now.call = call;
    for (lands = 0; lands < TRY_LANDINGS; lands++) {
        at.now.lands = (enum try_lands)lands;
        at.tries++;
        met = attempt(&at.now);
        try_check(call > 0 || !met, "a good driver does not fail");
    }
    return met;
}

static void all_calls(bool (*attempt)(const struct try_case *now))
{
    static const int errors[] = {1, -5, INT_MAX};
    unsigned long call;
    size_t i;

    at.now.error = 0;
    once(attempt, 0);
    for (i = 0; i < 2 * sizeof errors / sizeof *errors; i++) {
        at.now.error = errors[i / 2];
        at.now.for_good = i % 2 == 1;
        for (call = 1; once(attempt, call); call++)
            try_check(call < 10000, "a try that ends");
    }
}

void try_all(bool (*attempt)(const struct try_case *now))
{
    int log, landing;

    for (log = 0; log < TRY_LOGS; log++)
        for (landing = KGT_LANDS_WORDS; landing <= KGT_LANDS_BLOCKS; landing++) {
            at.now.log = (enum try_log)log;
            at.now.landing = (enum kgt_landing)landing;
            all_calls(attempt);
        }
}

int try_end(const char *name)
{
    printf("%s: right, %lu tries, %lu checks\n", name, at.tries, at.checks);
    return 0;
}

/* ---- a driver that fails ---- */

static struct {
    struct kgt_driver inner;
    unsigned long calls; /* since it was armed */
    struct try_case now;
    bool armed, met;
} fault;

void try_arm(const struct try_case *now)
{
    fault.now = *now;
    fault.calls = 0;
    fault.met = false;
    fault.armed = now->call > 0;
}

bool try_disarm(void)
{
    fault.armed = false;
    return fault.met;
}

int try_failure(void)
{
    if (!fault.armed)
        return 0;
    fault.calls++;
    if (fault.calls != fault.now.call && !(fault.met && fault.now.for_good))
        return 0;
    fault.met = true;
    return fault.now.error;
}

static int failing_load(void *context, enum kgt_area area, size_t offset, uint8_t *bytes, size_t size)
{
    int error = try_failure();

    (void)context;
    return error ? error : fault.inner.load(fault.inner.context, area, offset, bytes, size);
}

/* Every other write that fails has been taken all the same. */
static int failing_write(void *context, enum kgt_area area, size_t offset, const uint8_t *bytes, size_t size)
{
    int error = try_failure(), inner = 0;

    (void)context;
    if (!error || fault.now.call % 2 == 0)
        inner = fault.inner.write(fault.inner.context, area, offset, bytes, size);
    return error ? error : inner;
}

static int failing_fence(void *context)
{
    int error = try_failure();

    (void)context;
    return error ? error : fault.inner.fence(fault.inner.context);
}

struct kgt_driver try_failing(struct kgt_driver inner)
{
    struct kgt_driver driver;

    fault.inner = inner;
    driver.context = NULL;
    driver.load = failing_load;
    driver.write = failing_write;
    driver.fence = failing_fence;
    driver.landing = inner.landing;
    return driver;
}

/* ---- a medium in memory ---- */

enum { SIZE = KGT_LOG_SIZE(TRY_GROUPS) + KGT_HOMES_SIZE(TRY_HOMES) };

static uint8_t lasting[SIZE], written[SIZE], formatted[SIZE];
static uint8_t scratch[KGT_FORMAT_SIZE(TRY_GROUPS, TRY_HOMES)], judges[KGT_MEMORY_SIZE(TRY_GROUPS, TRY_HOMES)];
static struct kgt_memory medium;
static struct kagutin judge;

static struct kgt_driver medium_of(const uint8_t *image, enum kgt_landing landing)
{
    memcpy(lasting, image, SIZE);
    kgt_memory_init(&medium, lasting, written, TRY_GROUPS, TRY_HOMES);
    if (landing == KGT_LANDS_BLOCKS)
        kgt_memory_keep_blocks(&medium);
    return kgt_memory_driver(&medium);
}

static void init_judge(struct kgt_driver driver)
{
    try_check(kgt_init(&judge, judges, sizeof judges, TRY_GROUPS, TRY_HOMES, driver).code == KAGUTIN_DONE, "init");
}

struct kgt_driver try_medium(enum kgt_landing landing)
{
    static bool made;

    if (!made) {
        init_judge(medium_of(formatted, landing));
        try_check(kgt_format(&judge, scratch, sizeof scratch).code == KAGUTIN_DONE, "format");
        memcpy(formatted, lasting, SIZE);
        made = true;
    }
    return try_failing(medium_of(formatted, landing));
}

void try_start(struct kagutin *store, enum kgt_landing landing)
{
    static uint8_t memory[KGT_MEMORY_SIZE(TRY_GROUPS, TRY_HOMES)];
    struct kgt_driver driver = try_medium(landing);

    try_check(kgt_init(store, memory, sizeof memory, TRY_GROUPS, TRY_HOMES, driver).code == KAGUTIN_DONE, "init");
    try_check(kgt_open(store).code == KAGUTIN_DONE, "open");
}

const uint8_t *try_lasting(uint64_t home)
{
    return lasting + KGT_LOG_SIZE(TRY_GROUPS) + KAGUTIN_BLOCK_SIZE * (size_t)home;
}

bool try_unit_lands(enum try_lands lands, size_t unit)
{
    uint64_t mixed = (uint64_t)(unit + 1) * 0x9E3779B97F4A7C15u + at.now.call * 0xBF58476D1CE4E5B9u;

    return lands == TRY_SOME_LANDS ? mixed >> 40 & 1 : lands == TRY_ALL_LANDS;
}

static bool arrives(void *context, size_t offset)
{
    return try_unit_lands(*(const enum try_lands *)context, offset / medium.unit);
}

void try_cut(enum try_lands lands)
{
    kgt_memory_cut(&medium, arrives, &lands);
}

struct kagutin *try_opened_on(struct kgt_driver driver)
{
    init_judge(driver);
    try_check(kgt_open(&judge).code == KAGUTIN_DONE, "what the cut has left opens");
    return &judge;
}

struct kagutin *try_opened(void)
{
    return try_opened_on(kgt_memory_driver(&medium));
}

/* ---- logs and blocks ---- */

void try_block(uint8_t *block, unsigned number)
{
    size_t i;

    for (i = 0; i < KAGUTIN_BLOCK_SIZE; i++)
        block[i] = (uint8_t)(number * 37 + i);
}

static uint64_t free_places(struct kagutin *store)
{
    struct kagutin_places places;

    try_check(kgt_usage(store, &places).code == KAGUTIN_DONE, "usage");
    return places.free;
}

/* Two blocks: the first has an entry, and trim frees no group from there on. */
static void hold_back(struct kagutin *store)
{
    uint8_t block[KAGUTIN_BLOCK_SIZE];

    try_block(block, TRY_HELD);
    try_check(kgt_begin(store, TRY_HOLDER).code == KAGUTIN_DONE, "begin");
    try_check(kgt_store(store, TRY_HOLDER, TRY_HELD, block).code == KAGUTIN_DONE, "store");
    try_check(kgt_store(store, TRY_HOLDER, TRY_HELD + 1, block).code == KAGUTIN_DONE, "store");
}

void try_fill(struct kagutin *store, enum try_log log)
{
    uint8_t block[KAGUTIN_BLOCK_SIZE];
    uint64_t left = 3;
    unsigned number = 0;

    if (log != TRY_ROOMY) { /* everything else goes home first, so that the holder is in the log's first group */
        try_check(kgt_sync(store).code == KAGUTIN_DONE, "sync");
        while (kgt_maintain(store, 0).more)
            ;
    }
    if (log == TRY_HELD_BACK)
        hold_back(store);
    if (log != TRY_ROOMY)
        left = free_places(store);
    for (; left > 0; left--) {
        try_block(block, ++number);
        try_check(kgt_begin(store, TRY_FILLER).code == KAGUTIN_DONE, "begin");
        try_check(kgt_store(store, TRY_FILLER, TRY_FILLED, block).code == KAGUTIN_DONE, "store");
        try_check(kgt_commit(store, TRY_FILLER).code == KAGUTIN_DONE, "commit");
    }
    try_check(log == TRY_ROOMY || free_places(store) == 0, "a full log");
    if (log == TRY_LEFT)
        try_check(kgt_set_room(store, KGT_ROOM_BY_MAINTAIN).code == KAGUTIN_DONE, "room by maintain");
}

void try_free(struct kagutin *store)
{
    kgt_abort(store, TRY_HOLDER);
    try_check(kgt_sync(store).code == KAGUTIN_DONE, "sync");
    while (kgt_maintain(store, 0).more)
        ;
    try_check(free_places(store) == TRY_PLACES, "every place is free: nothing was left open");
}

void try_judge(const struct try_case *now, bool kept, bool met, uint64_t home, const uint8_t *before, const uint8_t *after)
{
    uint8_t block[KAGUTIN_BLOCK_SIZE];
    bool old, fresh;

    try_cut(now->lands);
    try_check(kgt_read(try_opened(), 0, home, block).code == KAGUTIN_DONE, "read");
    old = memcmp(block, before, sizeof block) == 0;
    fresh = memcmp(block, after, sizeof block) == 0;
    try_check(old || fresh, "the block from before or the new one");
    try_check(!kept || fresh, "what is called durable is there after a cut");
    try_check(kept || met || old, "what was refused is not there");
}
