/*
 * Kagutin on a mapped file, with three drivers:
 *
 *   kagutin          a write is copied into the mapping and its cache lines
 *                    are flushed; a fence is sfence
 *   kagutin-ordered  the same, but a group's blocks and a fence come first,
 *                    then its tags, then its mark and number: for memory in
 *                    which only aligned words of eight bytes persist whole
 *   kagutin-msync    a write is copied into the mapping; a fence is msync
 */
#include <cpuid.h>
#include <errno.h>
#include <fcntl.h>
#include <stdbool.h>
#include <stdio.h>
#include <stdlib.h>
#include <string.h>
#include <sys/mman.h>
#include <unistd.h>

#include "kagutin.h"
#include "store/kagutin_state_layout.h"
#include "workload.h"

enum { GROUPS = KAGUTIN_MAX_GROUPS, TRIM_AT = GROUPS / 4 * 3, LINE = 64, PAGE = 4096 };

enum driver { PLAIN, ORDERED, MSYNC };

/* The blocks of the workload lie around the list of rights, homes 8 to 11. */
enum { LIST = 8, LIST_HOMES = 4, ALL_HOMES = HOMES + LIST_HOMES };

static unsigned place_of(unsigned home)
{
    return home < LIST ? home : home + LIST_HOMES;
}

static uint8_t log_area[KAGUTIN_HEADER_SIZE + KAGUTIN_GROUP_SIZE * GROUPS], area[KAGUTIN_BLOCK_SIZE * ALL_HOMES];
static uint8_t state[KAGUTIN_STATE_SIZE], newest[KAGUTIN_POSITION_SIZE * ALL_HOMES], *batch, *image;
static size_t batch_size;
static uint64_t written, trim_at; /* groups in use that make room */
static enum driver driver;

#define AREAS log_area, sizeof log_area, area, sizeof area
#define STATE state, sizeof state
#define NEWEST newest, sizeof newest
#define BATCH batch, batch_size
#define IMAGE_SIZE (sizeof log_area + sizeof area)

/* Pages written since the last msync. */
static bool dirty[(sizeof log_area + sizeof area) / PAGE + 1];

/* ---- lasting memory ---- */

static void flush_clwb(const uint8_t *at, size_t size)
{
    size_t i;

    for (i = 0; i < size; i += LINE)
        __asm__ volatile("clwb %0" : : "m"(at[i]) : "memory");
}

static void flush_clflushopt(const uint8_t *at, size_t size)
{
    size_t i;

    for (i = 0; i < size; i += LINE)
        __asm__ volatile("clflushopt %0" : : "m"(at[i]) : "memory");
}

static void flush_clflush(const uint8_t *at, size_t size)
{
    size_t i;

    for (i = 0; i < size; i += LINE)
        __asm__ volatile("clflush %0" : : "m"(at[i]) : "memory");
}

static void (*flush_lines)(const uint8_t *at, size_t size) = flush_clflush;

static void choose_flush(void)
{
    unsigned a, b, c, d;

    if (!__get_cpuid_count(7, 0, &a, &b, &c, &d))
        return;
    if (b & (1u << 24))
        flush_lines = flush_clwb;
    else if (b & (1u << 23))
        flush_lines = flush_clflushopt;
}

static void fence(void)
{
    if (driver != MSYNC) {
        __asm__ volatile("sfence" : : : "memory");
        return;
    }
    if (msync(image, IMAGE_SIZE, MS_SYNC) != 0)
        fail("kagutin: msync: %s", strerror(errno));
    memset(dirty, 0, sizeof dirty);
}

/* msync writes whole pages. */
static void count_pages(const uint8_t *at, size_t size)
{
    size_t page = (size_t)(at - image) / PAGE, last = ((size_t)(at - image) + size - 1) / PAGE;

    for (; page <= last; page++) {
        written += dirty[page] ? 0 : PAGE;
        dirty[page] = true;
    }
}

/* Every write begins at a cache line of the image. */
static void write_lines(uint8_t *to, const uint8_t *from, size_t size)
{
    memcpy(to, from, size);
    if (driver == MSYNC) {
        count_pages(to, size);
    } else {
        flush_lines(to, size);
        written += size;
    }
}

/*
 * Until its mark and number persist the slot holds an old number and counts
 * as a hole. Stores to the same cache line persist in their order.
 */
static void write_ordered(uint8_t *to, const uint8_t *group)
{
    uint64_t word;

    write_lines(to + LINE, group + LINE, KAGUTIN_GROUP_SIZE - LINE);
    fence();
    memcpy(to + 8, group + 8, LINE - 8);
    memcpy(&word, group, 8);
    __asm__ volatile("" : : : "memory");
    *(volatile uint64_t *)(void *)to = word;
    flush_lines(to, LINE);
    written += LINE;
}

static size_t number16(const uint8_t *bytes)
{
    return (size_t)bytes[0] | (size_t)bytes[1] << 8;
}

/* Writes one record and gives its size. */
static size_t run_record(const uint8_t *record)
{
    if (record[0] == 'G') {
        uint8_t *to = image + kagutin_log_size(number16(record + 2));

        if (driver == ORDERED)
            write_ordered(to, record + 4);
        else
            write_lines(to, record + 4, KAGUTIN_GROUP_SIZE);
        return KAGUTIN_GW_SIZE;
    }
    if (record[0] == 'H') {
        write_lines(image + sizeof log_area + kagutin_area_size(number16(record + 2)), record + 4, KAGUTIN_BLOCK_SIZE);
        return KAGUTIN_HW_SIZE;
    }
    if (record[0] == 'K') {
        write_lines(image, record + 2, KAGUTIN_HEADER_SIZE);
        return KAGUTIN_KW_SIZE;
    }
    fence();
    return KAGUTIN_FN_SIZE;
}

/* ---- calls ---- */

/* Runs the batch of a call that must be done; gives its figure. */
static uint64_t done(const char *call, struct kagutin_reply reply)
{
    size_t at = 0;

    if (reply.code != KAGUTIN_DONE)
        fail("kagutin: %s answered %lu (%s)", call, (unsigned long)reply.code, kagutin_answer_text(reply.code));
    while (at < reply.size)
        at += run_record(batch + at);
    return reply.figure;
}

/* Groups in use, by the start and the next group in the state. */
static uint64_t groups_in_use(void)
{
    uint64_t start, next;

    memcpy(&start, state + STATE_START, 8);
    memcpy(&next, state + STATE_NEXT, 8);
    return next - start;
}

static void make_room(void)
{
    done("settle", kagutin_settle(AREAS, STATE, BATCH));
    done("trim", kagutin_trim(AREAS, STATE, NEWEST, BATCH));
    if (groups_in_use() != 0)
        fail("kagutin: trim left groups in use");
}

/* Makes durable what is committed, and room once the ring is 3/4 full. */
static void make_durable(uint64_t ticket)
{
    done("flush", kagutin_flush(AREAS, STATE, BATCH));
    if (done("confirm", kagutin_confirm(AREAS, STATE)) < ticket)
        fail("kagutin: a flushed commit was not confirmed");
    if (groups_in_use() >= trim_at)
        make_room();
}

static void keep_log(void)
{
    make_room();
    trim_at = GROUPS + 1;
}

static void store_block(unsigned writer, const struct write *write)
{
    done("store", kagutin_store(AREAS, STATE, write->block, BLOCK_SIZE, BATCH, writer, place_of(write->home)));
}

static void commit(const struct write *writes, size_t count)
{
    size_t i;

    done("begin", kagutin_begin(AREAS, STATE, 0));
    for (i = 0; i < count; i++)
        store_block(0, &writes[i]);
    make_durable(done("commit", kagutin_commit(AREAS, STATE, NEWEST, BATCH, 0)));
}

/* Eight writers take turns block by block. */
static void commit_together(const struct write *writes, size_t count)
{
    unsigned writer;
    uint64_t ticket = 0;
    size_t i;

    for (writer = 0; writer < TOGETHER; writer++)
        done("begin", kagutin_begin(AREAS, STATE, writer));
    for (i = 0; i < count; i++)
        for (writer = 0; writer < TOGETHER; writer++)
            store_block(writer, &writes[writer * count + i]);
    for (writer = 0; writer < TOGETHER; writer++)
        ticket = done("commit", kagutin_commit(AREAS, STATE, NEWEST, BATCH, writer));
    make_durable(ticket);
}

/* The groups that were filled are written; nothing of them is committed. */
static void cut_short(const struct write *writes, size_t count, void (*cut)(void))
{
    size_t i;

    done("begin", kagutin_begin(AREAS, STATE, 0));
    for (i = 0; i < count; i++)
        store_block(0, &writes[i]);
    cut();
    done("abort", kagutin_abort(AREAS, STATE, 0));
}

static void read_home(unsigned home, uint8_t *block)
{
    done("read", kagutin_read(AREAS, STATE, NEWEST, block, BLOCK_SIZE, 0, place_of(home)));
}

/* ---- image ---- */

static void map_image(const char *folder)
{
    char path[4096];
    int file;

    snprintf(path, sizeof path, "%s/image", folder);
    file = open(path, O_RDWR | O_CREAT, 0600);
    if (file < 0 || posix_fallocate(file, 0, (off_t)IMAGE_SIZE) != 0)
        fail("%s: cannot be made", path);
    image = mmap(NULL, IMAGE_SIZE, PROT_READ | PROT_WRITE, MAP_SHARED, file, 0);
    if (image == MAP_FAILED)
        fail("%s: cannot be mapped: %s", path, strerror(errno));
    close(file);
}

static void unmap_image(void)
{
    munmap(image, IMAGE_SIZE);
}

static void load_and_open(void)
{
    memcpy(log_area, image, sizeof log_area);
    memcpy(area, image + sizeof log_area, sizeof area);
    done("open", kagutin_open(AREAS, STATE, NEWEST, BATCH));
}

static void open_image(const char *folder)
{
    map_image(folder);
    load_and_open();
}

static void create_with(enum driver chosen, const char *folder)
{
    driver = chosen;
    trim_at = TRIM_AT;
    map_image(folder);
    done("format", kagutin_format(AREAS, BATCH));
    load_and_open();
}

static void create_plain(const char *folder)
{
    create_with(PLAIN, folder);
}

static void create_ordered(const char *folder)
{
    create_with(ORDERED, folder);
}

static void create_msync(const char *folder)
{
    create_with(MSYNC, folder);
}

static uint64_t bytes(void)
{
    return written;
}

/* A run of 6,144 commits settles at least twice; of single blocks, a whole number of times. */
int main(int argc, char **argv)
{
    static const struct store stores[] = {
        {"kagutin", 6144, create_plain, open_image, unmap_image, commit, commit_together, read_home, bytes, keep_log,
         cut_short},
        {"kagutin-ordered", 6144, create_ordered, open_image, unmap_image, commit, commit_together, read_home, bytes,
         keep_log, cut_short},
        {"kagutin-msync", 6144, create_msync, open_image, unmap_image, commit, commit_together, read_home, bytes,
         keep_log, cut_short},
    };

    choose_flush();
    batch_size = kagutin_format_batch(GROUPS, ALL_HOMES);
    batch = malloc(batch_size);
    if (!batch)
        fail("out of memory");
    return measure_stores(argc, argv, stores, sizeof stores / sizeof *stores);
}
