/*
 * The book of commits: what a store must bring back, kept from the arguments
 * and answers of the calls, the records of their batches and which of them
 * persisted. It never looks at the copies or the state.
 *
 * Entries are gathered in rows; a row goes to lasting memory as one group. An
 * entry persists with the group's first block, where its tag is, and its own.
 * At a power cut the list of commits stops before the first one with an entry
 * that has not persisted; what stays is the run.
 */
#ifndef STATION_BOOK_H
#define STATION_BOOK_H

#include <stdbool.h>
#include <stddef.h>
#include <stdint.h>

#include "kagutin_store.h"

struct book_entry {
    size_t home;
    uint64_t row; /* rows are numbered as groups are written, since the start */
    uint64_t position;
    uint8_t block[KAGUTIN_BLOCK_SIZE];
};

struct book_commit {
    unsigned writer;
    struct book_entry *entries;
    size_t count;
    uint64_t first;  /* position of the first entry */
    uint64_t ticket; /* position of the closing entry, plus 1 */
    bool owed;       /* confirmed durable */
};

struct book_writer {
    bool open, holds;
    size_t home; /* of the held block */
    uint8_t block[KAGUTIN_BLOCK_SIZE];
    struct book_entry *entries;
    size_t count, room;
    uint64_t first;
    uint64_t promised; /* places that no entry has used up */
};

struct book {
    size_t groups, homes;
    struct book_writer writers[KAGUTIN_WRITERS];
    struct book_commit *commits; /* since the last cut, in order */
    size_t commit_count, commit_room;
    uint8_t *kept;   /* homes after the run at the last cut */
    uint8_t *newest; /* homes after all commits */
    uint8_t *home;   /* homes as settle has left them */
    size_t settled_commits;
    bool in_round;
    uint8_t *ahead;       /* homes as the round under way will leave them */
    size_t ahead_commits; /* settled when it is over */
    size_t cursor;        /* its homes below this one are done */
    uint8_t *due;         /* by home: 1 if the round has still to write it */

    uint64_t rows, first_row; /* rows written: ever, up to the last cut */
    size_t filled;            /* entries in the row that is being filled */
    uint8_t *persisted;       /* by row since first_row: a bit for each block of its group */
    size_t persisted_room;

    /* Group numbers and positions, from the last opening on. */
    uint64_t start, next, fenced, settled, fixed; /* fixed: the fenced position that the round covers */
};

/* What a cut did to the list. */
struct book_cut {
    size_t commits, run, confirmed;
    bool owed_lost;                   /* a confirmed commit is outside the run: the store is wrong */
    size_t kept[KAGUTIN_WRITERS];     /* by writer: in the run */
    size_t lost[KAGUTIN_WRITERS];     /* outside it, though every entry was on its way to lasting memory */
    size_t unissued[KAGUTIN_WRITERS]; /* outside it, with an entry that never was */
};

/* Starts a book over homes with these contents; null: zeros. */
void book_start(struct book *book, size_t groups, size_t homes, const uint8_t *contents);
void book_free(struct book *book);

/* A done opening with this new start. */
void book_opened(struct book *book, uint64_t start);

/* A begin with this many places promised, or none. */
void book_begin(struct book *book, unsigned writer, uint64_t promised);
void book_abort(struct book *book, unsigned writer);

/* Must this store, or a commit, log an entry? Is there a place for one of this writer? */
bool book_store_logs(const struct book *book, unsigned writer, size_t home);
bool book_commit_logs(const struct book *book, unsigned writer);
bool book_has_place(const struct book *book, unsigned writer);

/* Places that can be promised. Does a flush leave all that are? */
uint64_t book_free_places(const struct book *book);
bool book_may_flush(const struct book *book);

/* Done calls. book_commit returns the ticket. */
void book_store(struct book *book, unsigned writer, size_t home, const uint8_t *block);
uint64_t book_commit(struct book *book, unsigned writer);
void book_flush(struct book *book);
void book_confirm(struct book *book, uint64_t mark);
void book_settle(struct book *book);

/*
 * A round: the homes that remain of it; a step by so many of them, which says
 * whether the round is over. Then every home must be as a settle at its
 * beginning would have left it.
 */
void book_begin_round(struct book *book);
size_t book_round_homes(struct book *book);
bool book_step_round(struct book *book, size_t homes);
bool book_is_ahead(const struct book *book);

/* The start to which a trim must move; the present one if it must not. */
uint64_t book_trim_start(const struct book *book);
void book_trim(struct book *book);

/* The log's places by what the calls made of them. */
void book_usage(const struct book *book, struct kagutin_places *usage);

/* The block that a read must give. */
const uint8_t *book_read(const struct book *book, unsigned writer, size_t home);

/* Of the row written as the number-th group these blocks have persisted. */
void book_persisted(struct book *book, uint64_t number, unsigned blocks);

/* Power is cut; so many rows had been issued ever. */
void book_power_cut(struct book *book, uint64_t rows_issued, struct book_cut *cut);

#endif
