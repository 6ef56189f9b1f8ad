/* The workload: random transactions, clock, power cuts, check at the end. */
#include "workload.h"

#include <errno.h>
#include <stdarg.h>
#include <stdio.h>
#include <stdlib.h>
#include <string.h>
#include <sys/stat.h>
#include <time.h>

#include "files.h"

enum {
    MOST_RUNS = 99,
    BLOCKS = 4096,
    PRELOAD = 16,
    MOST_SIZE = 64,
    LARGE = 16,
    FILL = 1024, /* commits before reads */
    READS = 1 << 18,
    COUNTED = 4096,
    LOGGED = 1632, /* commits before a power cut: of 4 blocks, eight together, they take 1,020 groups */
    UNCOMMITTED = 16, /* writes of the transaction that it cuts short */
    PATH_SIZE = 4096
};

/* What is measured: runs of commits transactions of size blocks; together is 0 where it is no commits. */
struct plan {
    const char *what;
    size_t together, size, round, runs, commits;
};

struct time {
    uint64_t processor, clock;
};

static uint8_t blocks[BLOCKS][BLOCK_SIZE]; /* what is written, over and over */
static uint8_t expected[HOMES][BLOCK_SIZE];

void fail(const char *format, ...)
{
    va_list arguments;

    va_start(arguments, format);
    vfprintf(stderr, format, arguments);
    va_end(arguments);
    fputc('\n', stderr);
    exit(EXIT_FAILURE);
}

static void *allocate(size_t count, size_t size)
{
    void *memory = calloc(count, size);

    if (!memory)
        fail("out of memory");
    return memory;
}

static uint64_t read_clock(clockid_t clock)
{
    struct timespec time;

    if (clock_gettime(clock, &time) != 0)
        fail("no clock: %s", strerror(errno));
    return (uint64_t)time.tv_sec * 1000000000u + (uint64_t)time.tv_nsec;
}

uint64_t bytes_by_write_calls(void)
{
    FILE *file = fopen("/proc/self/io", "r");
    char line[80];
    unsigned long long bytes;

    if (!file)
        fail("/proc/self/io: %s", strerror(errno));
    while (fgets(line, sizeof line, file)) {
        if (sscanf(line, "wchar: %llu", &bytes) == 1) {
            fclose(file);
            return bytes;
        }
    }
    fail("/proc/self/io does not count written bytes");
    return 0;
}

/* ---- random numbers (splitmix64) ---- */

static uint64_t seed;

static uint64_t random_number(void)
{
    uint64_t z = seed += 0x9e3779b97f4a7c15u;

    z = (z ^ (z >> 30)) * 0xbf58476d1ce4e5b9u;
    z = (z ^ (z >> 27)) * 0x94d049bb133111ebu;
    return z ^ (z >> 31);
}

static void make_blocks(void)
{
    size_t i, j;

    seed = 1;
    for (i = 0; i < BLOCKS; i++)
        for (j = 0; j < BLOCK_SIZE; j += 8) {
            uint64_t number = random_number();

            memcpy(&blocks[i][j], &number, 8);
        }
}

/* The same for every store: by round, size and run alone. */
static void make_writes(struct write *writes, const struct plan *plan, size_t run)
{
    size_t i;

    seed = (plan->round * MOST_SIZE + plan->size) * (MOST_RUNS + 1) + run;
    seed = random_number();
    for (i = 0; i < plan->commits * plan->size; i++) {
        uint64_t number = random_number();

        writes[i].home = (unsigned)(number % HOMES);
        writes[i].block = blocks[(number >> 32) % BLOCKS];
    }
}

static void note_writes(const struct write *writes, size_t count)
{
    size_t i;

    for (i = 0; i < count; i++)
        memcpy(expected[writes[i].home], writes[i].block, BLOCK_SIZE);
}

/* ---- runs ---- */

/* Every home gets a block, so that all later writes replace one. */
static void preload(const struct store *store)
{
    struct write writes[PRELOAD];
    unsigned home;
    size_t i;

    for (home = 0; home < HOMES; home += PRELOAD) {
        for (i = 0; i < PRELOAD; i++) {
            writes[i].home = home + (unsigned)i;
            writes[i].block = blocks[(home + i) % BLOCKS];
        }
        store->commit(writes, PRELOAD);
        note_writes(writes, PRELOAD);
    }
}

static void commit(const struct store *store, const struct plan *plan, const struct write *writes)
{
    if (plan->together > 1 && store->commit_together)
        store->commit_together(writes, plan->size);
    else
        store->commit(writes, plan->together * plan->size);
}

static struct time run(const struct store *store, const struct plan *plan, const struct write *writes)
{
    size_t step = plan->together * plan->size, count = plan->commits * plan->size, i;
    struct time time;

    time.clock = read_clock(CLOCK_MONOTONIC);
    time.processor = read_clock(CLOCK_PROCESS_CPUTIME_ID);
    for (i = 0; i < count; i += step)
        commit(store, plan, writes + i);
    time.processor = read_clock(CLOCK_PROCESS_CPUTIME_ID) - time.processor;
    time.clock = read_clock(CLOCK_MONOTONIC) - time.clock;
    return time;
}

static int compare_numbers(const void *a, const void *b)
{
    uint64_t x = *(const uint64_t *)a, y = *(const uint64_t *)b;

    return (x > y) - (x < y);
}

/* A run that times every call: what one in a thousand exceeds. */
static uint64_t run_slow(const struct store *store, const struct plan *plan, const struct write *writes)
{
    size_t calls = plan->commits / plan->together, i;
    uint64_t *times = allocate(calls, sizeof *times), last = read_clock(CLOCK_MONOTONIC), slow;

    for (i = 0; i < calls; i++) {
        uint64_t start = last;

        commit(store, plan, writes + i * plan->together * plan->size);
        last = read_clock(CLOCK_MONOTONIC);
        times[i] = last - start;
    }
    qsort(times, calls, sizeof *times, compare_numbers);
    slow = times[calls - 1 - calls / 1000];
    free(times);
    return slow;
}

/* Every home of the store, opened again, has the last block committed. */
static void check(const struct store *store)
{
    uint8_t block[BLOCK_SIZE];
    unsigned home;

    for (home = 0; home < HOMES; home++) {
        store->read(home, block);
        if (memcmp(block, expected[home], BLOCK_SIZE) != 0)
            fail("%s: home %u holds another block than the last one committed", store->name, home);
    }
}

static void print_runs(const struct store *store, const struct plan *plan, const struct time *times, uint64_t slow,
                       uint64_t bytes)
{
    double commits = (double)plan->commits;
    size_t i;

    for (i = 0; i < plan->runs; i++) {
        printf("%lu\t%s\t%s\t%lu\t%.1f\t%.1f\t%lu\t", (unsigned long)plan->round, store->name, plan->what,
               (unsigned long)plan->size, (double)times[i].processor / commits, (double)times[i].clock / commits,
               (unsigned long)slow);
        if (store->bytes)
            printf("%.1f\n", (double)bytes / (commits * (double)plan->runs));
        else
            printf("n/a\n");
    }
}

/* The run that times every call also warms up; then the timed runs. */
static void measure_runs(const struct store *store, const struct plan *plan)
{
    size_t count = plan->commits * plan->size, i;
    struct write *writes = allocate(count, sizeof *writes);
    struct time times[MOST_RUNS];
    uint64_t bytes = 0, slow;

    make_writes(writes, plan, 0);
    slow = run_slow(store, plan, writes);
    note_writes(writes, count);
    for (i = 0; i < plan->runs; i++) {
        uint64_t before = store->bytes ? store->bytes() : 0;

        make_writes(writes, plan, i + 1);
        times[i] = run(store, plan, writes);
        bytes += store->bytes ? store->bytes() - before : 0;
        note_writes(writes, count);
    }
    print_runs(store, plan, times, slow, bytes);
    free(writes);
}

/* ---- reads ---- */

/* Commits, made eight together, that a log still holds in part or in whole. */
static void fill(const struct store *store, const struct plan *plan, size_t commits)
{
    struct plan filling = *plan;
    struct write *writes = allocate(commits * plan->size, sizeof *writes);

    filling.together = TOGETHER;
    filling.commits = commits;
    make_writes(writes, &filling, 0);
    run(store, &filling, writes);
    note_writes(writes, commits * plan->size);
    free(writes);
}

static struct time run_reads(const struct store *store, size_t reads)
{
    uint8_t block[BLOCK_SIZE];
    struct time time;
    size_t i;

    time.clock = read_clock(CLOCK_MONOTONIC);
    time.processor = read_clock(CLOCK_PROCESS_CPUTIME_ID);
    for (i = 0; i < reads; i++)
        store->read((unsigned)(random_number() % HOMES), block);
    time.processor = read_clock(CLOCK_PROCESS_CPUTIME_ID) - time.processor;
    time.clock = read_clock(CLOCK_MONOTONIC) - time.clock;
    return time;
}

static void measure_reads(const struct store *store, const struct plan *plan)
{
    struct plan reads = *plan;
    struct time times[MOST_RUNS];
    size_t i;

    fill(store, plan, FILL);
    reads.commits = READS;
    run_reads(store, READS);
    for (i = 0; i < plan->runs; i++)
        times[i] = run_reads(store, READS);
    print_runs(store, &reads, times, 0, 0);
}

/* Kept a function of its own, so that callgrind knows its end. */
__attribute__((noinline)) static void counted_reads(const struct store *store)
{
    uint8_t block[BLOCK_SIZE];
    size_t i;

    for (i = 0; i < COUNTED; i++) {
        unsigned home = (unsigned)(random_number() % HOMES);

        store->read(home, block);
        if (memcmp(block, expected[home], BLOCK_SIZE) != 0)
            fail("%s: home %u reads another block than the last one committed", store->name, home);
    }
}

static void count_reads(const struct store *store, const struct plan *plan)
{
    fill(store, plan, FILL);
    counted_reads(store);
    store->close();
    printf("%s\t%d\n", store->name, (int)COUNTED);
}

/* ---- power cuts ---- */

static char live_folder[PATH_SIZE], cut_folder[PATH_SIZE], opened_folder[PATH_SIZE];

/* A memory file system shows at once what is written to a file or through a mapping. */
static void cut_power(void)
{
    copy_folder(live_folder, cut_folder);
}

/* A full log, and a transaction that is not committed when power fails. */
static void leave_cut_short(const struct store *store, const struct plan *plan)
{
    struct plan uncommitted = *plan;
    struct write writes[UNCOMMITTED];

    if (store->keep_log)
        store->keep_log();
    fill(store, plan, LOGGED);
    uncommitted.commits = 1;
    uncommitted.size = UNCOMMITTED;
    make_writes(writes, &uncommitted, 1);
    store->cut_short(writes, UNCOMMITTED, cut_power);
    store->close();
}

/* Opens a copy of what the power cut left, and reads one home. */
static struct time run_opening(const struct store *store, uint64_t *bytes)
{
    uint8_t block[BLOCK_SIZE];
    struct time time;
    uint64_t before;

    copy_folder(cut_folder, opened_folder);
    before = store->bytes ? store->bytes() : 0;
    time.clock = read_clock(CLOCK_MONOTONIC);
    time.processor = read_clock(CLOCK_PROCESS_CPUTIME_ID);
    store->open(opened_folder);
    store->read((unsigned)(random_number() % HOMES), block);
    time.processor = read_clock(CLOCK_PROCESS_CPUTIME_ID) - time.processor;
    time.clock = read_clock(CLOCK_MONOTONIC) - time.clock;
    *bytes += store->bytes ? store->bytes() - before : 0;
    check(store);
    store->close();
    remove_folder(opened_folder);
    return time;
}

static void measure_recovery(const struct store *store, const struct plan *plan, const char *folder)
{
    struct plan opening = *plan;
    struct time times[MOST_RUNS];
    uint64_t bytes = 0;
    size_t i;

    snprintf(live_folder, PATH_SIZE, "%s", folder);
    snprintf(cut_folder, PATH_SIZE, "%s-cut", folder);
    snprintf(opened_folder, PATH_SIZE, "%s-opened", folder);
    leave_cut_short(store, plan);
    run_opening(store, &bytes);
    bytes = 0;
    for (i = 0; i < plan->runs; i++)
        times[i] = run_opening(store, &bytes);
    opening.commits = 1;
    print_runs(store, &opening, times, 0, bytes);
    remove_folder(cut_folder);
}

/* ---- all of it ---- */

static int is(const struct plan *plan, const char *what)
{
    return strcmp(plan->what, what) == 0;
}

static void measure(const struct store *store, const struct plan *plan, const char *parent)
{
    char folder[PATH_SIZE / 2];

    if (snprintf(folder, sizeof folder, "%s/%s", parent, store->name) >= (int)sizeof folder || mkdir(folder, 0700) != 0)
        fail("%s: %s", folder, strerror(errno));
    store->create(folder);
    preload(store);
    if (is(plan, "recovery")) {
        measure_recovery(store, plan, folder);
        return;
    }
    if (is(plan, "counted")) {
        count_reads(store, plan);
        return;
    }
    if (is(plan, "reads"))
        measure_reads(store, plan);
    else
        measure_runs(store, plan);
    store->close();
    store->open(folder);
    check(store);
    store->close();
}

static int known(const struct plan *plan)
{
    return plan->what && (plan->together || is(plan, "reads") || is(plan, "recovery") || is(plan, "counted"));
}

int measure_stores(int argc, char **argv, const struct store *stores, size_t count)
{
    struct plan plan = {0};
    size_t i;

    if (argc == 6) {
        plan.what = argv[2];
        plan.together = is(&plan, "1") ? 1 : is(&plan, "8") ? TOGETHER : 0;
        plan.size = strtoul(argv[3], NULL, 10);
        plan.round = strtoul(argv[4], NULL, 10);
        plan.runs = strtoul(argv[5], NULL, 10);
    }
    if (!known(&plan) || plan.size < 1 || plan.size > MOST_SIZE || plan.runs < 1 || plan.runs > MOST_RUNS)
        fail("usage: %s FOLDER WHAT BLOCKS ROUND RUNS; WHAT 1, %d, reads, recovery or counted, BLOCKS up to %d, "
             "RUNS up to %d", argv[0], TOGETHER, MOST_SIZE, MOST_RUNS);
    make_blocks();
    for (i = 0; i < count; i++) {
        plan.commits = plan.size < LARGE ? stores[i].commits : stores[i].commits / 4 / TOGETHER * TOGETHER;
        measure(&stores[i], &plan, argv[1]);
    }
    return EXIT_SUCCESS;
}
