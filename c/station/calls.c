/* The library's calls, each held against the book. */
#include "calls.h"

#include <stdlib.h>
#include <string.h>

#include "calls_inner.h"
#include "common/rule.h"
#include "refusals.h"
#include "report.h"
#include "rights.h"

void call_expect(struct station *station, const char *call, struct kagutin_reply reply, uint64_t figure, uint64_t size)
{
    station->counters.calls++;
    if (reply.code != KAGUTIN_DONE)
        station_mismatch(station, "%s answered %llu (%s), it must be done", call, (unsigned long long)reply.code,
                         kagutin_answer_text(reply.code));
    if (reply.figure != figure)
        station_mismatch(station, "%s gave the figure %llu, not %llu", call, (unsigned long long)reply.figure,
                         (unsigned long long)figure);
    if (reply.size != size)
        station_mismatch(station, "%s wrote %llu bytes, not %llu", call, (unsigned long long)reply.size,
                         (unsigned long long)size);
}

void call_submit(struct station *station, uint64_t size)
{
    if (!driver_submit(&station->driver, size))
        station_mismatch(station, "%s", driver_message(&station->driver));
}

void call_expect_group(struct station *station, const char *call, uint64_t group)
{
    const struct driver *driver = &station->driver;
    struct kgt_record record;

    if (!kgt_read_record(driver->batch, KAGUTIN_GW_SIZE, driver->groups, driver->homes, &record) || record.kind != KGT_GW
        || record.place != group % driver->groups || rule_number(record.bytes + 2, 6) != group)
        station_mismatch(station, "%s did not submit group %llu", call, (unsigned long long)group);
}

/* Checks HW records, rising, with the blocks of the data copy; gives where they end. */
static size_t expect_homes(struct station *station, const char *call, size_t size)
{
    const struct driver *driver = &station->driver;
    size_t at = 0, least = 0;
    struct kgt_record record;

    while (kgt_read_record(driver->batch + at, size - at, driver->groups, driver->homes, &record) && record.kind == KGT_HW) {
        if (record.place < least)
            station_mismatch(station, "%s writes home %lu after a higher one", call, (unsigned long)record.place);
        if (memcmp(record.bytes, driver->area + kagutin_area_size(record.place), KAGUTIN_BLOCK_SIZE) != 0)
            station_mismatch(station, "%s writes another block to home %lu than its copy holds", call,
                             (unsigned long)record.place);
        least = record.place + 1;
        at += record.size;
    }
    return at;
}

static size_t expect_fence(struct station *station, const char *call, size_t at, size_t size)
{
    if (size - at < 2 || memcmp(station->driver.batch + at, "FN", 2) != 0)
        station_mismatch(station, "%s wrote no fence after the homes", call);
    return at + 2;
}

/* Checks KW and FN at the end of a batch, and the header in the log copy. */
static uint64_t expect_header(struct station *station, const char *call, size_t at, size_t size)
{
    const struct driver *driver = &station->driver;
    const uint8_t *record = driver->batch + at;

    if (size - at != KAGUTIN_TRIM_BATCH || memcmp(record, "KW", 2) != 0 || memcmp(record + KAGUTIN_KW_SIZE, "FN", 2) != 0)
        station_mismatch(station, "%s wrote no header and fence", call);
    if (memcmp(record + 2, driver->log, KAGUTIN_HEADER_SIZE) != 0)
        station_mismatch(station, "%s left another header in the log copy than it wrote", call);
    return rule_number(record + 4, 6);
}

static void expect_area(struct station *station, const char *call, const uint8_t *homes)
{
    size_t i;

    for (i = 0; i < station->driver.area_size; i++)
        if (station->driver.area[i] != homes[i])
            station_mismatch(station, "after %s the data copy differs from the book at home %lu, byte %lu", call,
                             (unsigned long)(i / KAGUTIN_BLOCK_SIZE), (unsigned long)(i % KAGUTIN_BLOCK_SIZE));
}

/* Are all groups of the log copy unused, in a log with this start? */
static bool is_blank(const struct driver *driver, uint64_t start)
{
    uint8_t unused[KAGUTIN_GROUP_SIZE];
    size_t slot;

    for (slot = 0; slot < driver->groups; slot++) {
        rule_unused(driver->groups, start, slot, unused);
        if (memcmp(driver->log + KGT_LOG_SIZE(slot), unused, sizeof unused) != 0)
            return false;
    }
    return true;
}

/* Checks GW of every group, blank, by rising slot, and FN at the end of a batch, and the log copy. */
static void expect_blanks(struct station *station, size_t at, size_t size, uint64_t start)
{
    const struct driver *driver = &station->driver;
    struct kgt_record record;
    size_t slot;

    for (slot = 0; slot < driver->groups; slot++, at += record.size)
        if (!kgt_read_record(driver->batch + at, size - at, driver->groups, driver->homes, &record) || record.kind != KGT_GW
            || record.place != slot || memcmp(record.bytes, driver->log + KGT_LOG_SIZE(slot), KAGUTIN_GROUP_SIZE) != 0)
            station_mismatch(station, "open did not blank ring slot %lu as in its copy", (unsigned long)slot);
    if (size - at != KAGUTIN_FN_SIZE || memcmp(driver->batch + at, "FN", 2) != 0)
        station_mismatch(station, "open wrote no fence after the blank groups, or more");
    if (!is_blank(driver, start))
        station_mismatch(station, "open left a group that is not blank, or with a wrong turn bit");
}

/* The header of an empty store, blank groups, homes of zeros. */
static bool looks_formatted(const struct driver *driver)
{
    uint8_t header[KAGUTIN_HEADER_SIZE] = {0x50, 0x54};
    size_t i;

    header[8] = (uint8_t)driver->groups;
    header[9] = (uint8_t)(driver->groups >> 8);
    header[10] = (uint8_t)driver->homes;
    header[11] = (uint8_t)(driver->homes >> 8);
    if (memcmp(driver->log, header, sizeof header) != 0 || !is_blank(driver, 0))
        return false;
    for (i = 0; i < driver->area_size; i++)
        if (driver->area[i])
            return false;
    return true;
}

void call_formatted(struct station *station)
{
    if (!looks_formatted(&station->driver))
        station_mismatch(station, "format left other copies than those of an empty store");
    if (!driver_load(&station->driver))
        station_trouble(station);
    if (!looks_formatted(&station->driver))
        station_mismatch(station, "format wrote another image than that of an empty store");
}

void call_open(struct station *station)
{
    struct driver *driver = &station->driver;
    struct rule_log log = {driver->log, driver->groups, driver->homes, rule_number(driver->log + 2, 6), false};
    struct kagutin_reply reply;
    struct rule_walk walk;
    uint64_t start;
    size_t at;

    if (!rule_walk(&log, &walk)) {
        fputs("out of memory for the commit rule\n", stderr);
        exit(EXIT_TROUBLE);
    }
    reply = kagutin_open(AREAS(station), STATE(station), NEWEST(station), BATCH(station));
    call_expect(station, "open", reply, walk.commit_count, reply.size);
    rule_free(&walk);
    at = expect_homes(station, "open", (size_t)reply.size);
    at = expect_fence(station, "open", at, (size_t)reply.size);
    start = expect_header(station, "open", at, at + KAGUTIN_TRIM_BATCH);
    expect_blanks(station, at + KAGUTIN_TRIM_BATCH, (size_t)reply.size, start);
    if (start != log.start + log.groups)
        station_mismatch(station, "open moved the start from %llu to %llu", (unsigned long long)log.start,
                         (unsigned long long)start);
    station->counters.replayed += (unsigned long)reply.figure;
    if (!station->book.groups) /* an image from an earlier run: its homes are where the book begins */
        book_start(&station->book, driver->groups, driver->homes, driver->area);
    expect_area(station, "open", station->book.kept);
    book_opened(&station->book, start);
    call_submit(station, reply.size);
}

void call_usage(struct station *station)
{
    struct kagutin_places *usage = &station->usage, book;

    *usage = kagutin_usage(AREAS(station), STATE(station));
    if (usage->code != KAGUTIN_DONE)
        station_mismatch(station, "usage answered %llu", (unsigned long long)usage->code);
    book_usage(&station->book, &book);
    if (usage->promised != book.promised)
        station_mismatch(station, "%llu places are promised, by the book %llu", (unsigned long long)usage->promised,
                         (unsigned long long)book.promised);
    if (usage->live != book.live || usage->dead != book.dead || usage->free != book.free)
        station_mismatch(station, "%llu places are live, %llu dead and %llu free, by the book %llu, %llu and %llu",
                         (unsigned long long)usage->live, (unsigned long long)usage->dead, (unsigned long long)usage->free,
                         (unsigned long long)book.live, (unsigned long long)book.dead, (unsigned long long)book.free);
    if (usage->holder != book.holder || usage->first != book.first)
        station_mismatch(station, "writer %llu holds the log from position %llu on, by the book %llu from %llu on",
                         (unsigned long long)usage->holder, (unsigned long long)usage->first, (unsigned long long)book.holder,
                         (unsigned long long)book.first);
}

void call_refused_full(struct station *station, const char *call, struct kagutin_reply reply, unsigned writer)
{
    refusal_check(station, call, reply, KAGUTIN_FULL);
    call_usage(station);
    report_full(station, call, writer);
}

void call_begin(struct station *station, unsigned writer)
{
    call_expect(station, "begin", kagutin_begin(AREAS(station), STATE(station), writer), 0, 0);
    book_begin(&station->book, writer, 0);
}

bool call_reserve(struct station *station, unsigned writer, uint64_t places)
{
    bool granted = places > 0 && places <= book_free_places(&station->book);
    struct kagutin_reply reply;

    if (!granted)
        refusal_prepare(station);
    reply = kagutin_reserve(AREAS(station), STATE(station), writer, places);
    if (!granted) {
        refusal_check(station, "reserve", reply, KAGUTIN_NO_PLACES);
        return false;
    }
    call_expect(station, "reserve", reply, 0, 0);
    book_begin(&station->book, writer, places);
    station->counters.reserves++;
    call_usage(station);
    return true;
}

void call_abort(struct station *station, unsigned writer)
{
    call_expect(station, "abort", kagutin_abort(AREAS(station), STATE(station), writer), 0, 0);
    book_abort(&station->book, writer);
    station->counters.aborts++;
    call_usage(station);
}

/* Bytes that logging one entry writes. */
static uint64_t entry_size(const struct book *book)
{
    return book->filled + 1 == KAGUTIN_GROUP_ENTRIES ? KAGUTIN_GW_SIZE : 0;
}

/* False, and all untouched, if the log is full. */
bool call_store(struct station *station, unsigned writer, size_t home, const uint8_t *block)
{
    bool logs = book_store_logs(&station->book, writer, home);
    bool full = logs && !book_has_place(&station->book, writer);
    uint64_t size = logs ? entry_size(&station->book) : 0, group = station->book.next;
    struct kagutin_reply reply;

    if (full)
        refusal_prepare(station);
    reply = kagutin_store(AREAS(station), STATE(station), block, KAGUTIN_BLOCK_SIZE, BATCH(station), writer, home);
    if (full) {
        call_refused_full(station, "store", reply, writer);
        return false;
    }
    call_expect(station, "store", reply, 0, size);
    if (size)
        call_expect_group(station, "store", group);
    book_store(&station->book, writer, home, block);
    call_submit(station, reply.size);
    return true;
}

/* As call_store. */
bool call_commit(struct station *station, unsigned writer)
{
    bool logs = book_commit_logs(&station->book, writer);
    bool full = logs && !book_has_place(&station->book, writer);
    uint64_t size = logs ? entry_size(&station->book) : 0, group = station->book.next;
    struct kagutin_reply reply;

    if (full)
        refusal_prepare(station);
    reply = kagutin_commit(AREAS(station), STATE(station), NEWEST(station), BATCH(station), writer);
    if (full) {
        call_refused_full(station, "commit", reply, writer);
        return false;
    }
    call_expect(station, "commit", reply, book_commit(&station->book, writer), size);
    if (size)
        call_expect_group(station, "commit", group);
    station->counters.commits += logs;
    call_submit(station, reply.size);
    return true;
}

bool call_flush(struct station *station)
{
    bool part = station->book.filled > 0, may = book_may_flush(&station->book);
    uint64_t group = station->book.next;
    struct kagutin_reply reply;

    if (!may)
        refusal_prepare(station);
    reply = kagutin_flush(AREAS(station), STATE(station), BATCH(station));
    if (!may) {
        refusal_check(station, "flush", reply, KAGUTIN_PROMISED);
        return false;
    }
    call_expect(station, "flush", reply, 0, part ? KAGUTIN_FLUSH_BATCH : KAGUTIN_FN_SIZE);
    if (part)
        call_expect_group(station, "flush", group);
    if (memcmp(station->driver.batch + reply.size - 2, "FN", 2) != 0)
        station_mismatch(station, "flush wrote no fence");
    book_flush(&station->book);
    call_submit(station, reply.size);
    call_usage(station);
    return true;
}

/* The driver confirms only what passed: all that waits is run first. */
void call_confirm(struct station *station)
{
    struct kagutin_reply reply = {0, 0, 0};

    if (!driver_run(&station->driver) || !driver_confirm(&station->driver, &reply))
        station_trouble(station);
    call_expect(station, "confirm", reply, station->book.fenced, 0);
    book_confirm(&station->book, reply.figure);
    station->counters.confirms++;
}

/* A round under way is finished first. */
void call_settle(struct station *station)
{
    struct kagutin_reply reply;
    size_t at;

    if (station->book.in_round)
        call_step_round(station, station->driver.homes);
    reply = kagutin_settle(AREAS(station), STATE(station), BATCH(station));
    call_expect(station, "settle", reply, 0, reply.size);
    at = expect_homes(station, "settle", (size_t)reply.size);
    if (expect_fence(station, "settle", at, (size_t)reply.size) != reply.size)
        station_mismatch(station, "settle wrote more than homes and a fence");
    book_settle(&station->book);
    expect_area(station, "settle", station->book.home);
    call_submit(station, reply.size);
}

void call_begin_round(struct station *station)
{
    call_expect(station, "begin_round", kagutin_begin_round(AREAS(station), STATE(station)), 0, 0);
    book_begin_round(&station->book);
    station->counters.rounds++;
}

void call_step_round(struct station *station, size_t homes)
{
    size_t due = book_round_homes(&station->book), now = due < homes ? due : homes, at;
    bool last = book_step_round(&station->book, homes);
    struct kagutin_reply reply = kagutin_step_round(AREAS(station), STATE(station), BATCH(station), homes);

    call_expect(station, "step_round", reply, 0, KAGUTIN_HW_SIZE * now + (last ? KAGUTIN_FN_SIZE : 0));
    at = expect_homes(station, "step_round", (size_t)reply.size);
    if (last)
        at = expect_fence(station, "step_round", at, (size_t)reply.size);
    if (at != reply.size)
        station_mismatch(station, "step_round wrote more than homes, and at the end a fence");
    expect_area(station, "step_round", station->book.home);
    if (last && !book_is_ahead(&station->book))
        station_mismatch(station, "a round left other homes than a settle at its beginning");
    station->counters.steps++;
    call_submit(station, reply.size);
}

void call_trim(struct station *station)
{
    uint64_t start = book_trim_start(&station->book);
    bool moves = start != station->book.start;
    struct kagutin_reply reply;

    if (start > KAGUTIN_MAX_START)
        refusal_prepare(station);
    reply = kagutin_trim(AREAS(station), STATE(station), NEWEST(station), BATCH(station));
    if (start > KAGUTIN_MAX_START) {
        refusal_check(station, "trim", reply, KAGUTIN_WORN_OUT);
        station->worn_out = true;
        return;
    }
    call_expect(station, "trim", reply, 0, moves ? KAGUTIN_TRIM_BATCH : 0);
    if (moves && expect_header(station, "trim", 0, (size_t)reply.size) != start)
        station_mismatch(station, "trim did not move the start to %llu", (unsigned long long)start);
    book_trim(&station->book);
    station->counters.trims += moves;
    call_submit(station, reply.size);
    call_usage(station);
}

bool call_read(struct station *station, unsigned writer, size_t home, uint8_t *block)
{
    bool may = rights_may_read(station, writer, home);
    struct kagutin_reply reply;

    if (!may)
        refusal_prepare(station);
    reply = kagutin_read(AREAS(station), STATE(station), NEWEST(station), block, KAGUTIN_BLOCK_SIZE, writer, home);
    if (!may) {
        refusal_check(station, "read", reply, KAGUTIN_READ_DENIED);
        return false;
    }
    call_expect(station, "read", reply, 0, 0);
    if (memcmp(block, book_read(&station->book, writer, home), KAGUTIN_BLOCK_SIZE) != 0)
        station_mismatch(station, "writer %u reads another block of home %lu than the book has", writer, (unsigned long)home);
    station->counters.reads++;
    return true;
}
