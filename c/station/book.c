#include "book.h"

#include <stdio.h>
#include <stdlib.h>
#include <string.h>

static void *resize(void *memory, size_t size)
{
    void *larger = realloc(memory, size);

    if (!larger) {
        fputs("out of memory for the book of commits\n", stderr);
        exit(3);
    }
    return larger;
}

static void put_home(uint8_t *homes, const struct book_entry *entry)
{
    memcpy(homes + kagutin_area_size(entry->home), entry->block, KAGUTIN_BLOCK_SIZE);
}

static void put_commit(uint8_t *homes, const struct book_commit *commit)
{
    size_t i;

    for (i = 0; i < commit->count; i++)
        put_home(homes, &commit->entries[i]);
}

void book_start(struct book *book, size_t groups, size_t homes, const uint8_t *contents)
{
    size_t size = kagutin_area_size(homes);

    memset(book, 0, sizeof *book);
    book->groups = groups;
    book->homes = homes;
    book->kept = resize(NULL, size);
    book->newest = resize(NULL, size);
    book->home = resize(NULL, size);
    book->ahead = resize(NULL, size);
    book->due = resize(NULL, homes);
    if (contents)
        memcpy(book->kept, contents, size);
    else
        memset(book->kept, 0, size);
    memcpy(book->newest, book->kept, size);
    memcpy(book->home, book->kept, size);
}

static void clear_list(struct book *book)
{
    size_t i;

    for (i = 0; i < book->commit_count; i++)
        free(book->commits[i].entries);
    book->commit_count = 0;
    book->settled_commits = 0;
    for (i = 0; i < KAGUTIN_WRITERS; i++)
        book_abort(book, (unsigned)i);
}

void book_free(struct book *book)
{
    clear_list(book);
    free(book->commits);
    free(book->kept);
    free(book->newest);
    free(book->home);
    free(book->ahead);
    free(book->due);
    free(book->persisted);
    memset(book, 0, sizeof *book);
}

void book_opened(struct book *book, uint64_t start)
{
    book->start = book->next = start;
    book->fenced = book->settled = KAGUTIN_GROUP_ENTRIES * start;
    book->in_round = false;
}

void book_begin(struct book *book, unsigned writer, uint64_t promised)
{
    book->writers[writer].open = true;
    book->writers[writer].promised = promised;
}

void book_abort(struct book *book, unsigned writer)
{
    struct book_writer *record = &book->writers[writer];

    free(record->entries);
    memset(record, 0, sizeof *record);
}

bool book_store_logs(const struct book *book, unsigned writer, size_t home)
{
    return book->writers[writer].holds && book->writers[writer].home != home;
}

bool book_commit_logs(const struct book *book, unsigned writer)
{
    return book->writers[writer].holds;
}

static uint64_t next_position(const struct book *book)
{
    return KAGUTIN_GROUP_ENTRIES * book->next + book->filled;
}

static uint64_t promised_places(const struct book *book)
{
    uint64_t places = 0;
    size_t i;

    for (i = 0; i < KAGUTIN_WRITERS; i++)
        places += book->writers[i].promised;
    return places;
}

uint64_t book_free_places(const struct book *book)
{
    return KAGUTIN_GROUP_ENTRIES * (book->start + book->groups) - next_position(book) - promised_places(book);
}

bool book_has_place(const struct book *book, unsigned writer)
{
    return book->writers[writer].promised || book_free_places(book);
}

bool book_may_flush(const struct book *book)
{
    return book->filled == 0 || book_free_places(book) >= KAGUTIN_GROUP_ENTRIES - book->filled;
}

/* The row goes to lasting memory as the next group. */
static void submit_row(struct book *book)
{
    size_t index = (size_t)(book->rows - book->first_row);

    if (index >= book->persisted_room) {
        book->persisted_room = 2 * index + 64;
        book->persisted = resize(book->persisted, book->persisted_room);
    }
    book->persisted[index] = 0;
    book->rows++;
    book->next++;
    book->filled = 0;
}

/* The held block becomes the last entry of its transaction and of the row. */
static void log_held(struct book *book, struct book_writer *record)
{
    struct book_entry *entry;

    if (record->count == record->room) {
        record->room = 2 * record->room + 4;
        record->entries = resize(record->entries, record->room * sizeof *record->entries);
    }
    if (record->count == 0)
        record->first = next_position(book);
    entry = &record->entries[record->count++];
    entry->home = record->home;
    entry->row = book->rows;
    entry->position = next_position(book);
    memcpy(entry->block, record->block, sizeof entry->block);
    record->holds = false;
    record->promised -= record->promised > 0;
    if (++book->filled == KAGUTIN_GROUP_ENTRIES)
        submit_row(book);
}

void book_store(struct book *book, unsigned writer, size_t home, const uint8_t *block)
{
    struct book_writer *record = &book->writers[writer];

    if (book_store_logs(book, writer, home))
        log_held(book, record);
    record->holds = true;
    record->home = home;
    memcpy(record->block, block, sizeof record->block);
}

uint64_t book_commit(struct book *book, unsigned writer)
{
    struct book_writer *record = &book->writers[writer];
    uint64_t ticket = next_position(book) + 1;
    struct book_commit *commit;

    if (!record->holds) {
        book_abort(book, writer);
        return 0;
    }
    log_held(book, record);
    if (book->commit_count == book->commit_room) {
        book->commit_room = 2 * book->commit_room + 16;
        book->commits = resize(book->commits, book->commit_room * sizeof *book->commits);
    }
    commit = &book->commits[book->commit_count++];
    commit->writer = writer;
    commit->entries = record->entries;
    commit->count = record->count;
    commit->first = record->first;
    commit->ticket = ticket;
    commit->owed = false;
    put_commit(book->newest, commit);
    memset(record, 0, sizeof *record);
    return ticket;
}

void book_flush(struct book *book)
{
    if (book->filled)
        submit_row(book);
    book->fenced = KAGUTIN_GROUP_ENTRIES * book->next;
}

void book_confirm(struct book *book, uint64_t mark)
{
    size_t i;

    for (i = 0; i < book->commit_count && book->commits[i].ticket <= mark; i++)
        book->commits[i].owed = true;
}

/* Writes the commits below the fenced position home, from one on; gives how many are. */
static size_t put_fenced(const struct book *book, uint8_t *homes, size_t from)
{
    while (from < book->commit_count && book->commits[from].ticket <= book->fenced)
        put_commit(homes, &book->commits[from++]);
    return from;
}

void book_settle(struct book *book)
{
    book->settled_commits = put_fenced(book, book->home, book->settled_commits);
    book->settled = book->fenced;
    book->fenced = KAGUTIN_GROUP_ENTRIES * book->next;
}

void book_begin_round(struct book *book)
{
    memcpy(book->ahead, book->home, kagutin_area_size(book->homes));
    book->ahead_commits = put_fenced(book, book->ahead, book->settled_commits);
    book->fixed = book->fenced;
    book->cursor = 0;
    book->in_round = true;
}

/* Those from the cursor on that commits below the fixed position write, of the ones not trimmed. */
size_t book_round_homes(struct book *book)
{
    size_t i, k, count = 0;

    memset(book->due, 0, book->homes);
    for (i = book->ahead_commits; i > 0 && book->commits[i - 1].ticket > KAGUTIN_GROUP_ENTRIES * book->start; i--)
        for (k = 0; k < book->commits[i - 1].count; k++)
            book->due[book->commits[i - 1].entries[k].home] = 1;
    for (i = book->cursor; i < book->homes; i++)
        count += book->due[i];
    return count;
}

bool book_step_round(struct book *book, size_t homes)
{
    bool last = book_round_homes(book) <= homes;

    for (; homes > 0 && book->cursor < book->homes; book->cursor++)
        if (book->due[book->cursor]) {
            memcpy(book->home + kagutin_area_size(book->cursor), book->ahead + kagutin_area_size(book->cursor),
                   KAGUTIN_BLOCK_SIZE);
            homes--;
        }
    if (!last)
        return false;
    book->settled_commits = book->ahead_commits;
    book->settled = book->fixed;
    book->fenced = KAGUTIN_GROUP_ENTRIES * book->next;
    book->in_round = false;
    return true;
}

bool book_is_ahead(const struct book *book)
{
    return memcmp(book->home, book->ahead, kagutin_area_size(book->homes)) == 0;
}

/* The group in which a transaction across 7 x start begins; start if there is none. */
static uint64_t begin_of_crossing(const struct book *book, uint64_t start)
{
    uint64_t edge = KAGUTIN_GROUP_ENTRIES * start;
    size_t i;

    for (i = 0; i < KAGUTIN_WRITERS; i++)
        if (book->writers[i].count && book->writers[i].first < edge)
            return book->writers[i].first / KAGUTIN_GROUP_ENTRIES;
    for (i = book->commit_count; i > 0 && book->commits[i - 1].ticket > edge; i--)
        if (book->commits[i - 1].first < edge)
            return book->commits[i - 1].first / KAGUTIN_GROUP_ENTRIES;
    return start;
}

uint64_t book_trim_start(const struct book *book)
{
    uint64_t start = book->settled / KAGUTIN_GROUP_ENTRIES, lower;

    while ((lower = begin_of_crossing(book, start)) < start)
        start = lower;
    return start;
}

void book_trim(struct book *book)
{
    uint64_t start = book_trim_start(book);

    if (start == book->start)
        return;
    book->start = start;
    book->fenced = KAGUTIN_GROUP_ENTRIES * book->next;
}

/* How many entries lie in the log from a position on. */
static uint64_t entries_from(const struct book_entry *entries, size_t count, uint64_t position)
{
    while (count > 0 && entries[0].position < position) {
        entries++;
        count--;
    }
    return count;
}

void book_usage(const struct book *book, struct kagutin_places *usage)
{
    uint64_t from = KAGUTIN_GROUP_ENTRIES * book->start;
    size_t i;

    memset(usage, 0, sizeof *usage);
    usage->holder = KAGUTIN_WRITERS;
    for (i = 0; i < KAGUTIN_WRITERS; i++) {
        const struct book_writer *record = &book->writers[i];

        usage->live += entries_from(record->entries, record->count, from);
        if (record->count && (usage->holder == KAGUTIN_WRITERS || record->first < usage->first)) {
            usage->holder = i;
            usage->first = record->first;
        }
    }
    for (i = book->commit_count; i > 0 && book->commits[i - 1].ticket > from; i--)
        usage->live += entries_from(book->commits[i - 1].entries, book->commits[i - 1].count, from);
    usage->dead = next_position(book) - from - usage->live;
    usage->free = KAGUTIN_GROUP_ENTRIES * book->groups - usage->live - usage->dead;
    usage->promised = promised_places(book);
}

const uint8_t *book_read(const struct book *book, unsigned writer, size_t home)
{
    const struct book_writer *record = &book->writers[writer];
    size_t i;

    if (record->holds && record->home == home)
        return record->block;
    for (i = record->count; i > 0; i--)
        if (record->entries[i - 1].home == home)
            return record->entries[i - 1].block;
    return book->newest + kagutin_area_size(home);
}

void book_persisted(struct book *book, uint64_t number, unsigned blocks)
{
    if (number >= book->first_row && number < book->rows)
        book->persisted[number - book->first_row] = (uint8_t)blocks;
}

/* The block with the tags, and the entry's own. */
static bool entry_persisted(const struct book *book, const struct book_entry *entry)
{
    unsigned blocks = entry->row < book->rows ? book->persisted[entry->row - book->first_row] : 0;

    return (blocks & 1) && (blocks >> (1 + entry->position % KAGUTIN_GROUP_ENTRIES) & 1);
}

static bool entries_persisted(const struct book *book, const struct book_commit *commit)
{
    size_t i;

    for (i = 0; i < commit->count; i++)
        if (!entry_persisted(book, &commit->entries[i]))
            return false;
    return true;
}

/* Entries are in rising rows, so the last one decides. */
static bool all_issued(const struct book_commit *commit, uint64_t rows_issued)
{
    return commit->entries[commit->count - 1].row < rows_issued;
}

void book_power_cut(struct book *book, uint64_t rows_issued, struct book_cut *cut)
{
    size_t i, size = kagutin_area_size(book->homes);

    memset(cut, 0, sizeof *cut);
    cut->commits = book->commit_count;
    while (cut->run < book->commit_count && entries_persisted(book, &book->commits[cut->run]))
        put_commit(book->kept, &book->commits[cut->run++]);
    for (i = 0; i < book->commit_count; i++) {
        const struct book_commit *commit = &book->commits[i];

        cut->confirmed += commit->owed;
        cut->owed_lost |= commit->owed && i >= cut->run;
        (i < cut->run ? cut->kept : all_issued(commit, rows_issued) ? cut->lost : cut->unissued)[commit->writer]++;
    }
    clear_list(book);
    book->filled = 0;
    book->first_row = book->rows;
    memcpy(book->newest, book->kept, size);
    memcpy(book->home, book->kept, size);
}
