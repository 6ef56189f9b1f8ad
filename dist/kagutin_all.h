/*
 * Kagutin, all of its headers in one: store, object, units and drivers.
 * Made by scripts/all_in_one.py from include/; do not edit: run `make all-in-one`.
 */

#ifndef KAGUTIN_ALL_H
#define KAGUTIN_ALL_H

/* ==== kagutin.h ==== */

/*
 * Kagutin: a crash-proof store of 64-byte blocks.
 *
 * Eight writers commit transactions of blocks into a log; power may fail at
 * any instant. The library works on copies of two areas in ordinary memory:
 *
 *   log    a 64-byte header and G groups of 512 bytes, G from 4 to 1,024
 *   area   D home blocks of 64 bytes, D from 1 to 65,535
 *   state  1,024 bytes that carry everything else from call to call
 *   newest 8 bytes for each home: the position of its newest committed entry,
 *          all ones for none, so that a read need not search the log
 *
 * Open, commit, trim and read are lent newest; open takes any bytes there.
 *
 * Homes 8 to 11 hold the list of rights: which homes each writer may store to
 * and read. Only writer 0 may store to those four, all may read them; without a
 * committed list every other home is open to all. kagutin_rights.h makes a
 * list, docs/HOMES.md says what lies in which home.
 *
 * It reaches lasting memory only by the batch: records that a call asks the
 * driver to write, in order. docs/FORMAT.md gives all bytes.
 *
 * The driver's duties. On them rests the promise that every opening brings
 * back the longest run of commits whose entries all persisted, with every
 * confirmed commit in it:
 *
 *  1. Run the batches in the order of the calls, each record in order. Every
 *     block of 64 bytes persists whole or not at all: a home (HW), the header
 *     (KW), each of a group's eight blocks (GW). A fence (FN) passes only when
 *     everything before it is in lasting memory; nothing after it may persist
 *     earlier. Between two fences any block may overtake another.
 *  2. Call confirm only when every fence of every batch so far has passed.
 *  3. Pass log, area, state and newest on untouched from call to call. Nobody
 *     else writes them, or the lasting memory.
 *  4. After the format and after every power cut, load both whole areas afresh
 *     and open, before any other call, until an opening is done. After a done
 *     opening do not open again before the next cut. What had not persisted at
 *     a cut must never persist later.
 *  5. Format once, before the first opening, and let its batch persist whole.
 *
 * Every call finishes. A refused call changes no lent byte, and its reply holds
 * the answer and zeros. Bytes of the batch past reply.size stay as they were.
 * All that passes from call to call is in the lent memory.
 *
 * Pointers must not be null, also with length 0, and no two lent buffers may
 * share a byte. No call asks this by itself: if it is not so, nothing that is
 * proved holds, and memory outside the buffers may be read and written. While
 * a program is being made, build the library with -DKAGUTIN_CHECK_BUFFERS (all
 * the files of dist/ have it): every call then asks it first, and answers 63
 * with zeros and touches nothing if it is not so. Lengths that are longer than
 * the memory behind the pointer nothing can find out.
 */
#ifndef KAGUTIN_H
#define KAGUTIN_H

#include <stddef.h>
#include <stdint.h>

#ifdef __cplusplus
extern "C" {
#endif

/* Of this header; kagutin_version() of kagutin_store.h tells that of the object that was linked. */
#define KAGUTIN_VERSION_MAJOR 1
#define KAGUTIN_VERSION_MINOR 0
#define KAGUTIN_VERSION_PATCH 0
#define KAGUTIN_VERSION "1.0.0"
#define KAGUTIN_VERSION_NUMBER (KAGUTIN_VERSION_MAJOR * 10000 + KAGUTIN_VERSION_MINOR * 100 + KAGUTIN_VERSION_PATCH)

/* Sizes in bytes. */
#define KAGUTIN_BLOCK_SIZE 64
#define KAGUTIN_HEADER_SIZE 64
#define KAGUTIN_GROUP_SIZE 512
#define KAGUTIN_STATE_SIZE 1024
#define KAGUTIN_POSITION_SIZE 8

/* Limits. */
#define KAGUTIN_MIN_GROUPS 4
#define KAGUTIN_MAX_GROUPS 1024
#define KAGUTIN_MIN_HOMES 1
#define KAGUTIN_MAX_HOMES 65535
#define KAGUTIN_WRITERS 8
#define KAGUTIN_GROUP_ENTRIES 7
#define KAGUTIN_MAX_START (UINT64_C(1) << 47)

/* Records of a batch: two bytes of mark, then what the record carries. */
#define KAGUTIN_GW_SIZE 516 /* "GW", ring slot (2), group (512) */
#define KAGUTIN_HW_SIZE 68  /* "HW", home (2), block (64) */
#define KAGUTIN_KW_SIZE 66  /* "KW", header (64) */
#define KAGUTIN_FN_SIZE 2   /* "FN" */

/* Batches of the calls whose size does not depend on G and D. */
#define KAGUTIN_STORE_BATCH KAGUTIN_GW_SIZE
#define KAGUTIN_COMMIT_BATCH KAGUTIN_GW_SIZE
#define KAGUTIN_FLUSH_BATCH (KAGUTIN_GW_SIZE + KAGUTIN_FN_SIZE)
#define KAGUTIN_TRIM_BATCH (KAGUTIN_KW_SIZE + KAGUTIN_FN_SIZE)

/*
 * Answers. A call asks its questions in the order 1 to 5, 19, 20, 6 to 8, 17, 18, 21, 10, 9. 11 to 16, 24 and 25
 * are given by what stands above the store: kagutin_bands.h, kagutin_hours.h, kagutin_alarms.h. [S-78]
 */
enum kagutin_answer {
    KAGUTIN_DONE = 0,
    KAGUTIN_BAD_LENGTH = 1,        /* a lent length is wrong */
    KAGUTIN_BAD_STATE = 2,         /* the state is out of order, or of other areas */
    KAGUTIN_BAD_HEADER = 3,        /* open: no store there: not formatted, of another shape or format, or damaged */
    KAGUTIN_BAD_WRITER = 4,        /* writer above 7 */
    KAGUTIN_BAD_HOME = 5,          /* home not below D */
    KAGUTIN_NOT_IDLE = 6,          /* begin, reserve: the writer has one open */
    KAGUTIN_NOT_OPEN = 7,          /* store, commit, abort: it has none open */
    KAGUTIN_FULL = 8,              /* no place left in the log for an entry */
    KAGUTIN_SHORT_BATCH = 9,       /* the batch cannot hold what the call writes */
    KAGUTIN_WORN_OUT = 10,         /* open, trim: the new start would exceed 2^47 */
    KAGUTIN_BAD_BANDS = 11,        /* bands_set: a bad strip or row; bands_look_up: above 9,999 mm, or no table */
    KAGUTIN_BAND_GAP = 12,         /* bands_set: a millimetre in no row */
    KAGUTIN_BAND_OVERLAP = 13,     /* bands_set: a millimetre in two rows or more */
    KAGUTIN_BAD_PUMP = 14,         /* pump above 7, or interval 0 */
    KAGUTIN_WRONG_PUMP_STATE = 15, /* pump_start while it runs, pump_stop while it does not */
    KAGUTIN_BAD_SECOND = 16,       /* before the pump's last event, or starts or total past 32 bits */
    KAGUTIN_NO_PLACES = 17,        /* reserve: n is 0 or more than are free */
    KAGUTIN_PROMISED = 18,         /* flush: it would leave too few for promises */
    KAGUTIN_STORE_DENIED = 19,     /* store: the writer has no right to store to this home */
    KAGUTIN_READ_DENIED = 20,      /* read: the writer has no right to read this home */
    KAGUTIN_WRONG_ROUND = 21,      /* settle, begin_round: a round is under way; step_round: none is, or 0 homes */
    KAGUTIN_BAD_ALARM = 24,        /* class out of range, an arrival already open, a clearing not open */
    KAGUTIN_ALARMS_FULL = 25,      /* an arrival while 48 are open */
    KAGUTIN_BAD_BUFFERS = 63       /* lent buffers overlap or a pointer is null; only in builds with KAGUTIN_CHECK_BUFFERS */
};

struct kagutin_reply {
    uint64_t code;   /* one of enum kagutin_answer */
    uint64_t figure; /* open: transactions; commit: ticket; confirm: mark */
    uint64_t size;   /* bytes written to the front of the batch */
};

/* What fills a log: its 7 x G places from the start to the end of group start + G - 1, each live, dead or free. */
struct kagutin_places {
    uint64_t code;     /* one of enum kagutin_answer */
    uint64_t live;     /* entries of open transactions, and of committed ones that are not trimmed */
    uint64_t dead;     /* aborted, or passed over by a flush, and not trimmed */
    uint64_t free;     /* from the next position on, promised ones included */
    uint64_t promised; /* of the free ones: to writers that reserved them */
    uint64_t holder;   /* writer whose open transaction begins first in the log; 8: none has entries there */
    uint64_t first;    /* position of that transaction's first entry; 0 with holder 8 */
};

/* What a driver is to do next for a batch: kagutin_next_action. But for a write area to from are 0. */
struct kagutin_action {
    uint64_t kind;   /* one of enum kagutin_kind; 63 as in enum kagutin_answer */
    uint64_t area;   /* a write: to the log (0) or to the homes (1), */
    uint64_t offset; /* at this byte of the area, */
    uint64_t size;   /* so many bytes, 8 to 512, */
    uint64_t source; /* which lie in the batch (0) or in the log copy (1), */
    uint64_t from;   /* from this byte on */
    uint64_t at;     /* the cursor to ask with when that is done: all records below this byte of the batch are carried out, */
    uint64_t headed; /* the first words of all groups below this number are written, */
    uint64_t stage;  /* and so many steps of the record at the byte are done */
};

enum kagutin_kind {
    KAGUTIN_ALL_DONE = 0, /* all records are written and every fence has passed */
    KAGUTIN_WRITE = 1,
    KAGUTIN_FENCE = 2,  /* wait until all earlier writes are in lasting memory */
    KAGUTIN_REFUSED = 3 /* no batch, or a cursor that none has; nothing is to be done */
};

/* Length of the log area of G groups, and of the data area of D homes. */
static inline size_t kagutin_log_size(size_t groups)
{
    return KAGUTIN_HEADER_SIZE + KAGUTIN_GROUP_SIZE * groups;
}

static inline size_t kagutin_area_size(size_t homes)
{
    return KAGUTIN_BLOCK_SIZE * homes;
}

/* Length of the newest positions of D homes. */
static inline size_t kagutin_newest_size(size_t homes)
{
    return KAGUTIN_POSITION_SIZE * homes;
}

/* Exactly what format writes; no call writes more. */
static inline size_t kagutin_format_batch(size_t groups, size_t homes)
{
    return KAGUTIN_GW_SIZE * groups + KAGUTIN_HW_SIZE * homes + 2 * KAGUTIN_KW_SIZE + 3 * KAGUTIN_FN_SIZE;
}

/* The most that settle can write: one HW for each home with an entry, FN. */
static inline size_t kagutin_settle_batch(size_t groups, size_t homes)
{
    size_t entries = KAGUTIN_GROUP_ENTRIES * groups;

    return KAGUTIN_HW_SIZE * (homes < entries ? homes : entries) + KAGUTIN_FN_SIZE;
}

/* The most that a step by so many homes can write: one HW for each, FN if it is the last. */
static inline size_t kagutin_step_batch(size_t groups, size_t homes, uint64_t step)
{
    size_t all = kagutin_settle_batch(groups, homes), some = step & SIZE_MAX;

    return step < all / KAGUTIN_HW_SIZE ? KAGUTIN_HW_SIZE * some + KAGUTIN_FN_SIZE : all;
}

/* The most that open can write: as settle, then the header, FN, every group and FN. */
static inline size_t kagutin_open_batch(size_t groups, size_t homes)
{
    return kagutin_settle_batch(groups, homes) + KAGUTIN_KW_SIZE + KAGUTIN_FN_SIZE + KAGUTIN_GW_SIZE * groups + KAGUTIN_FN_SIZE;
}

/* An answer in words. */
static inline const char *kagutin_answer_text(uint64_t code)
{
    switch (code) {
    case KAGUTIN_DONE: return "done";
    case KAGUTIN_BAD_LENGTH: return "a lent length is wrong";
    case KAGUTIN_BAD_STATE: return "the state is out of order";
    case KAGUTIN_BAD_HEADER: return "no store there: not formatted, of another shape or format, or damaged";
    case KAGUTIN_BAD_WRITER: return "no such writer";
    case KAGUTIN_BAD_HOME: return "no such home";
    case KAGUTIN_NOT_IDLE: return "the writer has a transaction open";
    case KAGUTIN_NOT_OPEN: return "the writer has no transaction open";
    case KAGUTIN_FULL: return "the log is full";
    case KAGUTIN_SHORT_BATCH: return "the batch is too short";
    case KAGUTIN_WORN_OUT: return "the new start would exceed 2^47";
    case KAGUTIN_BAD_BANDS: return "no table of depth bands, a bad row, or a depth above 9,999 mm";
    case KAGUTIN_BAND_GAP: return "a millimetre lies in no row";
    case KAGUTIN_BAND_OVERLAP: return "a millimetre lies in two rows or more";
    case KAGUTIN_BAD_PUMP: return "no such pump, or an interval of 0";
    case KAGUTIN_WRONG_PUMP_STATE: return "a start while the pump runs, or a stop while it does not";
    case KAGUTIN_BAD_SECOND: return "a second before the pump's last event, or a number past 32 bits";
    case KAGUTIN_NO_PLACES: return "not so many places are free";
    case KAGUTIN_PROMISED: return "too few places would be left for promises";
    case KAGUTIN_STORE_DENIED: return "no right to store to this home";
    case KAGUTIN_READ_DENIED: return "no right to read this home";
    case KAGUTIN_WRONG_ROUND: return "a round of settling is under way, or none is";
    case KAGUTIN_BAD_ALARM: return "a class out of range, an alarm already open, or one that is not";
    case KAGUTIN_ALARMS_FULL: return "48 alarms are open";
    case KAGUTIN_BAD_BUFFERS: return "lent buffers overlap or a pointer is null";
    default: return "not an answer";
    }
}

/*
 * Makes both copies those of an empty store with all homes zero.
 * Batch: KW of zeros, FN, every group blank and every home zeros, FN, header, FN.
 * Answers 1, 9.
 */
struct kagutin_reply kagutin_format(uint8_t *log, size_t log_size, uint8_t *area, size_t area_size, uint8_t *batch,
                                    size_t batch_size);

/*
 * Replays the committed transactions of the log into the area, empties the
 * log and writes the state and newest anew, whatever they held. All writers
 * are then idle, and no position is kept.
 * figure: number of transactions replayed.
 * Batch: HW of each home touched, rising, FN, KW, FN, every group blank, FN.
 * Answers 1, 3 (also for a header of the older format, mark 50 48), 10, 9.
 */
struct kagutin_reply kagutin_open(uint8_t *log, size_t log_size, uint8_t *area, size_t area_size, uint8_t *state,
                                  size_t state_size, uint8_t *newest, size_t newest_size, uint8_t *batch, size_t batch_size);

/* Opens a transaction of an idle writer. Answers 1, 2, 4, 6. */
struct kagutin_reply kagutin_begin(const uint8_t *log, size_t log_size, const uint8_t *area, size_t area_size, uint8_t *state,
                                   size_t state_size, uint64_t writer);

/*
 * Opens a transaction of an idle writer and promises it n places of the log:
 * its first n entries, the commit's own among them, are not answered 8. Free
 * places are those up to the end of the ring less those promised; a store to
 * the same home again and a refused call use none up. Commit and abort give
 * the rest back, an opening all. Answers 1, 2, 4, 6, 17.
 */
struct kagutin_reply kagutin_reserve(const uint8_t *log, size_t log_size, const uint8_t *area, size_t area_size, uint8_t *state,
                                     size_t state_size, uint64_t writer, uint64_t n);

/*
 * Drops the writer's transaction; its entries in the log never count, and
 * places promised to it are free again. Answers 1, 2, 4, 7.
 */
struct kagutin_reply kagutin_abort(const uint8_t *log, size_t log_size, const uint8_t *area, size_t area_size, uint8_t *state,
                                   size_t state_size, uint64_t writer);

/*
 * Adds a block for a home to the writer's transaction. The block is held in
 * the state; storing the same home again replaces it, another home first logs
 * the held one. A home may be stored any number of times; the last one counts.
 * Batch: GW if the entry logged is the seventh of its group, else nothing.
 * Answers 1, 2, 4, 5, 19, 7, 8, 9. 19: homes 8 to 11 are for writer 0; other
 * homes, while a list is committed, for the writers it gives them to. A list
 * counts from its commit, never while it is only stored. 8: flush, settle and trim make room, unless an
 * open transaction holds the log; the transaction stays open and as it was.
 */
struct kagutin_reply kagutin_store(uint8_t *log, size_t log_size, const uint8_t *area, size_t area_size, uint8_t *state,
                                   size_t state_size, const uint8_t *block, size_t block_size, uint8_t *batch, size_t batch_size,
                                   uint64_t writer, uint64_t home);

/*
 * Commits the writer's transaction: reads show it from now on, and it is
 * durable once a confirm returns its ticket or more. The writer is then idle.
 * For each home it wrote, newest gets the last entry's position.
 * figure: the ticket; 0 for a transaction without a store, which counts as no
 * commit. Tickets rise until the next cut and mean nothing after it.
 * Batch: as for store. Answers 1, 2, 4, 7, 8, 9.
 */
struct kagutin_reply kagutin_commit(uint8_t *log, size_t log_size, const uint8_t *area, size_t area_size, uint8_t *state,
                                    size_t state_size, uint8_t *newest, size_t newest_size, uint8_t *batch, size_t batch_size,
                                    uint64_t writer);

/*
 * Submits a part-filled group, if there is one, and fences. 18: the places
 * passed over are promised; store on, or let a writer commit or abort.
 * Batch: GW if so, FN. Answers 1, 2, 18, 9.
 */
struct kagutin_reply kagutin_flush(const uint8_t *log, size_t log_size, const uint8_t *area, size_t area_size, uint8_t *state,
                                   size_t state_size, uint8_t *batch, size_t batch_size);

/*
 * Says that every fence of every batch so far has passed.
 * figure: the durable mark; commits with that ticket or less are durable.
 * Answers 1, 2.
 */
struct kagutin_reply kagutin_confirm(const uint8_t *log, size_t log_size, const uint8_t *area, size_t area_size, uint8_t *state,
                                     size_t state_size);

/*
 * Writes home what is committed and fenced, so that trim can free its groups.
 * Batch: HW of each such home, rising, FN. Answers 1, 2, 21 (in a round), 9.
 */
struct kagutin_reply kagutin_settle(const uint8_t *log, size_t log_size, uint8_t *area, size_t area_size, uint8_t *state,
                                    size_t state_size, uint8_t *batch, size_t batch_size);

/*
 * Begins a round, which settles in small steps what a settle would now: it
 * fixes the fenced position that it covers. Every other call but settle may
 * come between its steps; an opening ends it. Writes nothing.
 * Answers 1, 2, 21 (a round is under way).
 */
struct kagutin_reply kagutin_begin_round(const uint8_t *log, size_t log_size, const uint8_t *area, size_t area_size,
                                         uint8_t *state, size_t state_size);

/*
 * Moves the round on by its next so many homes, or all that remain. The step
 * after which none remains (the first if there is none) ends the round: only
 * then trim can free its groups. A round over n homes ends after n / homes
 * steps at the latest, rounded up, or one. The round stays as it was at 9.
 * Batch: HW of each such home, rising; FN if the round ends.
 * Answers 1, 2, 21 (no round, or homes is 0), 9.
 */
struct kagutin_reply kagutin_step_round(const uint8_t *log, size_t log_size, uint8_t *area, size_t area_size, uint8_t *state,
                                        size_t state_size, uint8_t *batch, size_t batch_size, uint64_t homes);

/*
 * Frees the groups below the settled position that no open or committed
 * transaction reaches across; positions in them are no longer kept.
 * Batch: KW, FN if any is freed, else nothing. Answers 1, 2, 10, 9.
 */
struct kagutin_reply kagutin_trim(uint8_t *log, size_t log_size, const uint8_t *area, size_t area_size, uint8_t *state,
                                  size_t state_size, uint8_t *newest, size_t newest_size, uint8_t *batch, size_t batch_size);

/*
 * Gives a home's block as the writer sees it: its own newest one if its open
 * transaction stored one, else the newest committed one, found at the position
 * kept for the home. An idle writer reads what is committed. Only the block is
 * changed. Answers 1, 2, 4, 5, 20. 20: a list is committed and does not let the
 * writer read this home, which is not one of 8 to 11; also for its own block.
 */
struct kagutin_reply kagutin_read(const uint8_t *log, size_t log_size, const uint8_t *area, size_t area_size,
                                  const uint8_t *state, size_t state_size, const uint8_t *newest, size_t newest_size,
                                  uint8_t *block, size_t block_size, uint64_t writer, uint64_t home);

/*
 * Tells what fills the log. A held block has no place yet. Trims free what is
 * dead, settled or both up to the group in which the holder's first entry lies,
 * never beyond. Changes nothing. Answers 1, 2, with zeros in all other fields.
 */
struct kagutin_places kagutin_usage(const uint8_t *log, size_t log_size, const uint8_t *area, size_t area_size,
                                    const uint8_t *state, size_t state_size);

/*
 * Tells what a driver is to do next for a batch. Ask, carry the action out, ask
 * again with its cursor, until all is done; batch and log copy stay as they are
 * meanwhile. An action that failed may have been carried out or not: then open,
 * before all else. kgt_run of kagutin_store.h does this.
 *
 * landing: the medium keeps words of 8 bytes whole (0) or blocks of 64 (1); groups
 * and homes are G and D. A batch begins at byte 0 and stage 0. next is the number
 * of the next group: the eight bytes at offset 24 of the state as the batch's call
 * has left it (docs/FORMAT.md), 0 for a format. headed goes on from batch to batch
 * and is next for those of format and open. Refused: sizes or numbers out of
 * range, and at the first byte where no record begins; nothing is asked of a
 * record's bytes. On words:
 *
 *  - A group is written without its first word, which holds its number. At the
 *    next fence come a fence, the first words of the groups from headed to below
 *    next, which lie in the log copy where they lie in the log, and the fence.
 *  - A header of zeros, with which a format begins, is its first word, a fence,
 *    and then all of it. [S-85]
 */
struct kagutin_action kagutin_next_action(const uint8_t *batch, size_t batch_size, uint64_t landing, uint64_t groups,
                                          uint64_t homes, uint64_t next, uint64_t at, uint64_t headed, uint64_t stage);

#ifdef __cplusplus
}
#endif

#endif

/* ==== kagutin_chains.h ==== */

/*
 * Calls on one to seven homes in a row under one verdict, for what stands above
 * the store: kagutin_bands.h, kagutin_hours.h, kagutin_alarms.h, or a unit of your
 * own. Their questions are asked once for all homes.
 *
 * blocks is a strip of home blocks, 64 bytes each, the call's home first.
 */
#ifndef KAGUTIN_CHAINS_H
#define KAGUTIN_CHAINS_H


#ifdef __cplusplus
extern "C" {
#endif

/* The most blocks of a strip: as many entries as a group has. */
#define KAGUTIN_MAX_CHAIN KAGUTIN_GROUP_ENTRIES

/* The most that transact writes: one group. */
#define KAGUTIN_TRANSACT_BATCH KAGUTIN_GW_SIZE

/*
 * Reads the homes as the writer sees them, as read does for each. Only the strip
 * is changed. Answers 1 (also a strip of no whole blocks, of none or of more than
 * seven), 2, 4, 5 (one of the homes is not below D), 20.
 */
struct kagutin_reply kagutin_fetch(const uint8_t *log, size_t log_size, const uint8_t *area, size_t area_size,
                                   const uint8_t *state, size_t state_size, const uint8_t *newest, size_t newest_size,
                                   uint8_t *blocks, size_t blocks_size, uint64_t writer, uint64_t home);

/* The same for a writer that is going to store what it makes of them. Answers 1, 2, 4, 5, 19, 20. */
struct kagutin_reply kagutin_revise(const uint8_t *log, size_t log_size, const uint8_t *area, size_t area_size,
                                    const uint8_t *state, size_t state_size, const uint8_t *newest, size_t newest_size,
                                    uint8_t *blocks, size_t blocks_size, uint64_t writer, uint64_t home);

/*
 * Begin, a store of each block by rising home, and commit, of an idle writer:
 * one transaction, or nothing at all. figure: the ticket.
 * Batch: GW if one of the entries is the seventh of its group.
 * Answers 1, 2, 4, 5, 19, 6, 8 (fewer places are free than there are blocks), 9.
 */
struct kagutin_reply kagutin_transact(uint8_t *log, size_t log_size, const uint8_t *area, size_t area_size, uint8_t *state,
                                      size_t state_size, uint8_t *newest, size_t newest_size, const uint8_t *blocks,
                                      size_t blocks_size, uint8_t *batch, size_t batch_size, uint64_t writer, uint64_t home);

#ifdef __cplusplus
}
#endif

#endif

/* ==== kagutin_store.h ==== */

/*
 * A Kagutin store as one object: it holds the lent memory, runs every batch
 * on a driver, makes room in a full log and shuts itself after a failure of
 * the driver. Plain C99, no heap; kagutin.h has the calls below it.
 *
 *     static uint8_t memory[KGT_MEMORY_SIZE(16, 32)];
 *     static struct kagutin store;
 *
 *     static bool start(struct kgt_driver driver)    // after every start of the device
 *     {
 *         return kgt_init(&store, memory, sizeof memory, 16, 32, driver).code == KAGUTIN_DONE
 *             && kgt_open(&store).code == KAGUTIN_DONE;
 *     }
 *
 *     static bool keep(const uint8_t *block)         // writer 0, home 7; true: no power cut takes it away
 *     {
 *         if (kgt_begin(&store, 0).code != KAGUTIN_DONE)
 *             return false;
 *         if (kgt_store(&store, 0, 7, block).code == KAGUTIN_DONE && kgt_commit_sync(&store, 0).code == KAGUTIN_DONE)
 *             return true;
 *         kgt_abort(&store, 0);                      // if it is still open
 *         return false;
 *     }
 *
 * Replies. Every call has code, 0 for done. Its other fields have one meaning
 * each, and unless the call is done they promise nothing: no mark ever reaches
 * the ticket, the mark reaches no ticket, more is false, numbers are
 * KGT_NOT_TOLD. So `kgt_sync(&store).mark >= ticket` is true only of a commit
 * that is durable (a commit of nothing has ticket 0, and nothing to lose). A
 * ticket belongs to its opening: after the next, drop it. Marks go on rising,
 * and what was not durable may be gone.
 *
 * Tasks. Every call but kgt_init, kgt_set_lock, kgt_set_room and
 * kgt_allow_list_stores takes the lock, if one is set, once, and gives it back
 * before it returns; without a lock all calls must come from one task. Begin, reserve, store, commit, abort, read,
 * sync, maintain and usage may come from any task at any time; a writer belongs
 * to one task at a time. Format and open come from one task before the others
 * start, or after a failure. No call may come from an interrupt or a signal
 * handler, or from a driver's function: hand the block to a task. A call holds
 * the lock while its driver writes, so the lock should pass priority on.
 *
 * Stack. By default a call that finds the log full settles it, on its caller's
 * stack; kgt_set_room leaves that to the task that maintains. docs/DRIVERS.md
 * has the sizes of both, by call.
 */
#ifndef KAGUTIN_STORE_H
#define KAGUTIN_STORE_H

#include <stdbool.h>


#ifdef __cplusplus
extern "C" {
#endif

/* ---- drivers ---- */

/* The two areas of lasting memory: header and groups; home blocks. */
enum kgt_area { KGT_LOG, KGT_HOMES };

/*
 * What the medium keeps whole if power fails while it is written: aligned words
 * of 8 bytes, or aligned blocks of 64.
 */
enum kgt_landing { KGT_LANDS_WORDS, KGT_LANDS_BLOCKS };

/*
 * A driver: three functions that return 0, or an error of the driver's own.
 *
 * load   first decides what lasting memory holds, then copies it in: all that it
 *        gives is still there after a power cut, and no earlier write arrives
 *        any more. A store opened again after a failure, without a cut, relies
 *        on this alone. So before it reads, load waits for transfers under way
 *        or calls them off, and writes a cache back or drops it.
 * write  writes at an offset of an area; offsets and sizes are multiples of 8.
 *        Its bytes may arrive at any time up to the next fence, before or after
 *        other writes, in parts no smaller than the landing says; also if it
 *        fails.
 * fence  returns 0 when all earlier writes are in lasting memory. If it fails,
 *        any of them may be.
 *
 * docs/DRIVERS.md says why this is enough, and what to do on other media. [S-77]
 */
struct kgt_driver {
    void *context;
    int (*load)(void *context, enum kgt_area area, size_t at, uint8_t *bytes, size_t size);
    int (*write)(void *context, enum kgt_area area, size_t at, const uint8_t *bytes, size_t size);
    int (*fence)(void *context);
    enum kgt_landing landing;
};

/* ---- sizes ---- */

/* A number as a size_t without a cast, which C++ would be warned of. */
#define KGT_BYTES(number) sizeof(char[number])

#define KGT_LOG_SIZE(groups) (KGT_BYTES(KAGUTIN_HEADER_SIZE) + KGT_BYTES(KAGUTIN_GROUP_SIZE) * (groups))
#define KGT_HOMES_SIZE(homes) (KGT_BYTES(KAGUTIN_BLOCK_SIZE) * (homes))
#define KGT_NEWEST_SIZE(homes) (KGT_BYTES(KAGUTIN_POSITION_SIZE) * (homes))

/* The longest batch of any call but format: open's. */
#define KGT_TOUCHED(groups, homes)                                                                                               \
    (KGT_BYTES(1) * (homes) < KGT_BYTES(KAGUTIN_GROUP_ENTRIES) * (groups) ? KGT_BYTES(1) * (homes)                               \
                                                                          : KGT_BYTES(KAGUTIN_GROUP_ENTRIES) * (groups))
#define KGT_OPEN_BATCH(groups, homes)                                                                                            \
    (KAGUTIN_HW_SIZE * KGT_TOUCHED(groups, homes) + KAGUTIN_FN_SIZE + KAGUTIN_KW_SIZE + KAGUTIN_FN_SIZE                          \
     + KGT_BYTES(KAGUTIN_GW_SIZE) * (groups) + KAGUTIN_FN_SIZE)
#define KGT_BATCH_SIZE(groups, homes) KGT_OPEN_BATCH(groups, homes)

/* Bytes of memory that a store of this shape needs, and more for a format. */
#define KGT_MEMORY_SIZE(groups, homes)                                                                                           \
    (KGT_LOG_SIZE(groups) + KGT_HOMES_SIZE(homes) + KAGUTIN_STATE_SIZE + KGT_NEWEST_SIZE(homes) + KGT_BATCH_SIZE(groups, homes))
#define KGT_FORMAT_SIZE(groups, homes)                                                                                           \
    (KGT_BYTES(KAGUTIN_GW_SIZE) * (groups) + KGT_BYTES(KAGUTIN_HW_SIZE) * (homes) + 2 * KAGUTIN_KW_SIZE + 3 * KAGUTIN_FN_SIZE)

/* ---- answers beyond those of kagutin.h ---- [S-75] */

enum kgt_answer {
    KGT_CLOSED = 64,        /* the store has not been opened */
    KGT_DRIVER_FAILED = 65, /* in this or an earlier call. Open again. */
    KGT_LOCK_FAILED = 66,   /* the lock was not given; nothing was done */
    KGT_NOT_INIT = 67,      /* kgt_init was not called, or was refused */
    KGT_LIST_GUARDED = 68   /* a store to homes 8 to 11, which kgt_set_rights stores; nothing was done */
};

/* Any answer in words. */
const char *kgt_answer_text(uint64_t code);

/* KAGUTIN_VERSION as it was when the object was compiled. [S-79] */
const char *kagutin_version(void);

/* ---- replies ---- */

/* A number that a call tells only if it is done; no done call tells this one. */
#define KGT_NOT_TOLD UINT64_MAX

/* The holder where no open transaction holds the log, and in every reply but those of a full log. */
#define KGT_NO_HOLDER KAGUTIN_WRITERS

struct kgt_reply {
    uint64_t code;   /* 0: done */
    uint64_t holder; /* 8 and 17: the writer whose open transaction holds the log's oldest groups */
    int error;       /* 65: the driver's; else 0 */
};

struct kgt_opened {
    uint64_t code;
    uint64_t commits; /* transactions brought back from the log; KGT_NOT_TOLD unless done */
    int error;
};

struct kgt_ticket {
    uint64_t code;
    uint64_t
        ticket; /* the commit is durable once a mark is this or more; KGT_NOT_TOLD, which no mark reaches, if there is no commit */
    uint64_t holder;
    int error;
};

struct kgt_mark {
    uint64_t code;
    uint64_t mark; /* commits with this ticket or less are durable; 0 unless done */
    int error;
};

struct kgt_progress {
    uint64_t code;
    bool more; /* there is more to do; false unless done */
    int error;
};

/* ---- running batches ---- */

enum kgt_kind { KGT_GW, KGT_HW, KGT_KW, KGT_FN };

struct kgt_record {
    enum kgt_kind kind;
    size_t place;         /* GW: ring slot; HW: home; else 0 */
    const uint8_t *bytes; /* what is written; none for FN */
    size_t size;          /* of the whole record in the batch */
};

/* Reads the record at the front of a batch; false if there is none whole. */
bool kgt_read_record(const uint8_t *batch, size_t size, size_t groups, size_t homes, struct kgt_record *record);

/*
 * Runs batches on a driver: what kagutin_next_action answers is carried out, and
 * it is asked again. Where blocks do not land whole, a group's first word, which
 * holds its number, is written after a fence that follows the rest of it; until
 * then the slot is a hole. That word lies in the log copy, and the state has the
 * number of the next group: both are those that the calls are lent. Where only
 * blocks are written, or only a format is run, they may be null.
 */
#define KGT_BAD_BATCH (-1000) /* the error for a batch that cannot be read [S-82] */

struct kgt_runner {
    struct kgt_driver driver;
    size_t groups, homes;
    const uint8_t *log, *state;
    uint64_t headed; /* first words of all groups below this number are written; KGT_NONE_WAITS: of all there are */
};

#define KGT_NONE_WAITS UINT64_MAX

/* Before every opening and every format: no first word waits. */
void kgt_runner_init(struct kgt_runner *runner, struct kgt_driver driver, const uint8_t *log, const uint8_t *state, size_t groups,
                     size_t homes);

/*
 * Each returns 0, or the error at which it stopped; then open. A batch is run
 * before the next call is made; a record is one that kgt_read_record has found
 * in a batch.
 */
int kgt_run_record(struct kgt_runner *runner, const struct kgt_record *record);
int kgt_run(struct kgt_runner *runner, const uint8_t *batch, size_t size);
int kgt_run_fence(struct kgt_runner *runner);

/* ---- the object ---- */

enum kgt_condition { KGT_IS_UNUSABLE, KGT_IS_CLOSED, KGT_IS_OPEN, KGT_HAS_FAILED };

/* Who makes room in a full log: the call that finds it full, or only the task that calls kgt_maintain. */
enum kgt_room { KGT_ROOM_AT_ONCE, KGT_ROOM_BY_MAINTAIN };

struct kagutin {
    struct kgt_runner runner;
    uint8_t *log, *area, *state, *newest, *batch; /* parts of the lent memory */
    size_t log_size, area_size, newest_size, batch_size;
    enum kgt_condition condition;
    enum kgt_room room;
    bool list_stores; /* kgt_store may store to the list of rights */
    int error;        /* of the driver, once it has failed */
    int (*lock)(void *context);
    void (*unlock)(void *context);
    void *lock_context;
};

/*
 * Takes KGT_MEMORY_SIZE(groups, homes) bytes of memory or more, and a driver;
 * both stay lent to the store. Touches no lasting memory. Forgets an earlier
 * lock and earlier settings. Answer 1: a size is wrong, groups or homes are out of
 * range, or a function of the driver is null; every call then answers 67. [S-75]
 */
struct kgt_reply kgt_init(struct kagutin *store, uint8_t *memory, size_t size, size_t groups, size_t homes,
                          struct kgt_driver driver);

/*
 * Hooks around every call; lock returns 0 when it has the lock. Null: none.
 * After kgt_init and before the tasks start. Answers 67, and 1 if only one of
 * the two is null.
 */
struct kgt_reply kgt_set_lock(struct kagutin *store, int (*lock)(void *context), void (*unlock)(void *context), void *context);

/*
 * KGT_ROOM_BY_MAINTAIN: writers' calls and sync never settle. In a full log they
 * answer 8, 17 or 18 at once and leave making room to one task that calls
 * kgt_sync and then kgt_maintain until nothing is left. That task alone needs
 * the stack of a settle. After kgt_init and before the tasks start. Answer 67. [S-76]
 */
struct kgt_reply kgt_set_room(struct kagutin *store, enum kgt_room room);

/*
 * Lets kgt_store of writer 0 store to homes 8 to 11, block by block. Where D is
 * 12 or more any byte there that is not zero is a list of rights, and one that
 * was not meant so locks every writer out of all other homes: so without this
 * such a store is answered 68, and kgt_set_rights is the way to a list. After
 * kgt_init and before the tasks start. Answer 67.
 */
struct kgt_reply kgt_allow_list_stores(struct kagutin *store);

/*
 * Makes lasting memory an empty store with all homes zero. Once in a device's
 * life; scratch has KGT_FORMAT_SIZE(groups, homes) bytes and is free again
 * afterwards. The store is then closed. After a failure it loads the header
 * first, so that no earlier write arrives any more. Answers 9 (scratch is too
 * short; the store is as it was), 65, 66, 67.
 */
struct kgt_reply kgt_format(struct kagutin *store, uint8_t *scratch, size_t size);

/*
 * Loads lasting memory and brings back the longest run of commits that
 * persisted; transactions open before are gone, as in a power cut. Needed
 * after init and after a failure. Answers 3 (no store there, one of another
 * shape or of an older format), 10 (worn out), 65, 66, 67. [S-73]
 */
struct kgt_opened kgt_open(struct kagutin *store);

/*
 * As the calls of kagutin.h, with their answers and 64, 65, 66, 67. A block has
 * 64 bytes; a read that is not done leaves it as it was.
 *
 * If the log is full, store, commit and reserve flush, settle and trim once and
 * try again; 10 then means that the log is worn out. If that frees nothing they
 * answer 8, and holder is the writer whose open transaction holds the log's
 * oldest groups: commit or abort that one; if it is this writer itself, its
 * transaction is too long for the log. The transaction stays open and as it
 * was. 19 and 20 come from the list of rights; kagutin_rights.h. 68 comes before
 * all others: a store of writer 0 to homes 8 to 11 where D is 12 or more, unless
 * kgt_allow_list_stores was called; the transaction goes on. [S-73]
 */
struct kgt_reply kgt_begin(struct kagutin *store, uint64_t writer);
struct kgt_reply kgt_store(struct kagutin *store, uint64_t writer, uint64_t home, const uint8_t *block);
struct kgt_ticket kgt_commit(struct kagutin *store, uint64_t writer);
struct kgt_reply kgt_abort(struct kagutin *store, uint64_t writer);
struct kgt_reply kgt_read(struct kagutin *store, uint64_t writer, uint64_t home, uint8_t *block);

/*
 * As begin, and promises the transaction so many places of the log: a store or
 * commit whose entry is among its first so many is never answered 8. A
 * transaction of n stores has at most n entries. Unused places come back at
 * commit and abort. If too few are free it makes room once. Answer 17: too few
 * still, or places is 0; holder as for 8; the writer stays idle. 10: worn out.
 */
struct kgt_reply kgt_reserve(struct kagutin *store, uint64_t writer, uint64_t places);

/*
 * Flush, fence, confirm. Answer 18: the flush would pass over places that are
 * promised, and making room did not help; nothing is confirmed. Sync again when
 * a transaction that reserved places has ended. 10: worn out. [S-74]
 */
struct kgt_mark kgt_sync(struct kagutin *store);

/*
 * Commit and sync in one. Done: the commit is durable. Refused with the commit's
 * answers, the transaction is as after a refused commit, and ticket is
 * KGT_NOT_TOLD. 18 with a ticket, or 10 (worn out): committed, and durable once a
 * later sync's mark reaches it. [S-74]
 */
struct kgt_ticket kgt_commit_sync(struct kagutin *store, uint64_t writer);

/*
 * Frees log space in the background: writes home what is committed and fenced,
 * and trims. most bounds the homes that one call writes; it begins a round if
 * none is under way and something is to be settled, moves it on by one step,
 * and trims when it is over. 0: no bound, a whole settle. Go on while there is
 * more. Other calls may come between; a full log makes them finish the round,
 * unless kgt_set_room says otherwise. Answers 10, 64, 65, 66, 67. [S-76]
 */
struct kgt_progress kgt_maintain(struct kagutin *store, uint64_t most);

/*
 * Tells what fills the log at this moment, and which writer holds it back; dead
 * places and those of committed transactions come free by sync and maintain, up
 * to the group in which the holder's transaction begins. A held block has no
 * place yet. Writes nothing; looks at the tags of the log as a trim does.
 * Answers 64, 65, 66, 67; places then has this code, zeros, and holder 8.
 */
struct kgt_reply kgt_usage(struct kagutin *store, struct kagutin_places *places);

#ifdef __cplusplus
}
#endif

#endif

/* ==== kagutin_rights.h ==== */

/*
 * Who may touch what: the list of rights, 256 bytes in homes 8 to 11.
 *
 * All may read those four homes and only writer 0 may store to them. For each
 * writer the list has four ranges of homes to store to and four to read. From
 * the commit of a list on a store elsewhere is answered 19, a read 20, also for
 * writer 0. 256 zeros, or fewer than 12 homes, is no list: every other home is
 * then open to all. docs/HOMES.md has the bytes. kgt_store refuses these homes
 * (68) unless kgt_allow_list_stores was called: a block that was not meant for a
 * list would be one, and lock all writers out.
 *
 *     static bool give_rights(void)                              // true: no power cut takes the list away
 *     {
 *         struct kgt_rights list;
 *         struct kgt_ticket set;
 *
 *         kgt_rights_clear(&list);
 *         if (!kgt_rights_allow_store(&list, 3, 24, 6)           // writer 3, homes 24 to 29
 *             || !kgt_rights_allow_read(&list, 3, 0, 65535))     // and it may read all
 *             return false;
 *         set = kgt_set_rights(&store, &list);                   // done: it counts from now on
 *         return kgt_sync(&store).mark >= set.ticket;
 *     }
 */
#ifndef KAGUTIN_RIGHTS_H
#define KAGUTIN_RIGHTS_H


#ifdef __cplusplus
extern "C" {
#endif

#define KGT_RIGHTS_HOME 8
#define KGT_RIGHTS_HOMES 4
#define KGT_RIGHTS_RANGES 4 /* of each kind, for each writer */
#define KGT_RIGHTS_SIZE (KGT_RIGHTS_HOMES * KAGUTIN_BLOCK_SIZE)

struct kgt_rights {
    uint8_t bytes[KGT_RIGHTS_SIZE];
};

/* A range of homes: those from first to below first + number. */
struct kgt_range {
    uint64_t first, number;
};

/* No list. */
void kgt_rights_clear(struct kgt_rights *list);

/*
 * Adds a range that a writer may store to, or read. False, and the list as it
 * was: no such writer, a first home or number above 65,535, or four ranges of
 * that kind already. A number of 0 adds nothing.
 */
bool kgt_rights_allow_store(struct kgt_rights *list, uint64_t writer, uint64_t first, uint64_t number);
bool kgt_rights_allow_read(struct kgt_rights *list, uint64_t writer, uint64_t first, uint64_t number);

/* One of the four ranges of a writer; writer below 8, index below 4. */
struct kgt_range kgt_rights_store_range(const struct kgt_rights *list, uint64_t writer, unsigned index);
struct kgt_range kgt_rights_read_range(const struct kgt_rights *list, uint64_t writer, unsigned index);

/* Is it a list? What does it let a writer below 8 do? The homes of the list itself are those of writer 0. */
bool kgt_rights_is_list(const struct kgt_rights *list);
bool kgt_rights_may_store(const struct kgt_rights *list, uint64_t writer, uint64_t home);
bool kgt_rights_may_read(const struct kgt_rights *list, uint64_t writer, uint64_t home);

/*
 * Commits a list as one transaction of writer 0, which must be idle; no power
 * cut leaves a part of it. It is durable once kgt_sync's mark reaches the ticket.
 * Makes room in a full log as kgt_commit does. Answers 5 (fewer than 12 homes),
 * 6, 8 (no room for four entries), 10, 64, 65, 66, 67; but for 65 nothing has
 * changed then, and after 65 an opening tells. [S-81]
 */
struct kgt_ticket kgt_set_rights(struct kagutin *store, const struct kgt_rights *list);

/*
 * Gives the list as the writer sees it: the committed one, but for what an open
 * transaction of writer 0 has stored there. All of one moment. Answers 4, 5, 64,
 * 65, 66, 67; the list is then as it was.
 */
struct kgt_reply kgt_get_rights(struct kagutin *store, uint64_t writer, struct kgt_rights *list);

#ifdef __cplusplus
}
#endif

#endif

/* ==== kagutin_bands.h ==== */

/*
 * Depth bands: which pumps run at which depth of the pit, as a table in homes
 * 12 to 14 of a Kagutin store. Stands on the store's calls alone; links with
 * kagutin.h's library. The calls are lent what the store's own are.
 *
 * A table is a strip of 5-byte rows: from and to in millimetres, both included,
 * 16 bits each, lowest byte first, then the number of pumps. Every millimetre
 * from 0 to 9,999 lies in exactly one row. Rows need no order.
 *
 * After a power cut a lookup finds the last table whose commit came back, whole,
 * provided that nobody else stores to homes 12 to 14.
 */
#ifndef KAGUTIN_BANDS_H
#define KAGUTIN_BANDS_H


#ifdef __cplusplus
extern "C" {
#endif

#define KAGUTIN_BANDS_HOME 12
#define KAGUTIN_BANDS_HOMES 3
#define KAGUTIN_BAND_SIZE 5
#define KAGUTIN_MAX_BANDS 32
#define KAGUTIN_MAX_BAND_PUMPS 4
#define KAGUTIN_DEPTHS 10000

/* The most that setting a table writes: one group. */
#define KAGUTIN_BANDS_BATCH KAGUTIN_GW_SIZE

/* The answer, and the row; zeros if not done. */
struct kagutin_band {
    uint64_t code; /* one of enum kagutin_answer */
    uint64_t from;
    uint64_t to;
    uint64_t pumps;
};

/*
 * Sets the table as one transaction of an idle writer: begin, three stores,
 * commit. figure: the ticket; with 12 and 13 the lowest millimetre in no row,
 * or in two or more.
 * Batch: GW if one of the three entries is the seventh of its group.
 * Answers 11 (no rows, more than 32, a strip that ends inside a row, from above
 * to, to above 9,999 or pumps above 4), 12, 13; then once for all three homes 1,
 * 2, 4, 5, 19, 6, 8, 9. 12 is given before 13.
 */
struct kagutin_reply kagutin_bands_set(uint8_t *log, size_t log_size, const uint8_t *area, size_t area_size, uint8_t *state,
                                       size_t state_size, uint8_t *newest, size_t newest_size, uint8_t *batch, size_t batch_size,
                                       const uint8_t *rows, size_t rows_size, uint64_t writer);

/*
 * The row that a depth lies in, as the writer sees the table. Changes nothing.
 * Answers 11 (mm above 9,999), 1, 2, 4, 5, 20, 11 (the homes hold no table that
 * would be accepted).
 */
struct kagutin_band kagutin_bands_look_up(const uint8_t *log, size_t log_size, const uint8_t *area, size_t area_size,
                                          const uint8_t *state, size_t state_size, const uint8_t *newest, size_t newest_size,
                                          uint64_t writer, uint64_t mm);

#ifdef __cplusplus
}
#endif

#endif

/* ==== kagutin_hours.h ==== */

/*
 * Pump hours book: starts and run seconds of pumps 0 to 7, pump p in home 16 + p
 * of a Kagutin store. Stands on the store's calls alone; links with kagutin.h's
 * library. The calls are lent what the store's own are.
 *
 * After a power cut starts and seconds are those of the events whose commits
 * came back, provided that nobody else stores to homes 16 to 23. A pump whose
 * start came back and whose stop did not is running: a start is answered 15
 * until a stop comes.
 */
#ifndef KAGUTIN_HOURS_H
#define KAGUTIN_HOURS_H


#ifdef __cplusplus
extern "C" {
#endif

#define KAGUTIN_PUMP_HOME 16
#define KAGUTIN_PUMPS 8

/* The most that an event writes: one group. */
#define KAGUTIN_PUMP_BATCH KAGUTIN_GW_SIZE

/* Zeros but for the answer if not done. */
struct kagutin_hours {
    uint64_t code; /* one of enum kagutin_answer */
    uint64_t starts;
    uint64_t seconds; /* of the finished runs */
};

struct kagutin_services {
    uint64_t code; /* one of enum kagutin_answer */
    uint64_t due;  /* whole services, one each interval seconds of finished runs */
    uint64_t left; /* seconds left over, below the interval */
};

/*
 * The pump starts, or stops, at this second count: one transaction of an idle
 * writer. A start counts one more; a stop adds the seconds since the start.
 * Equal seconds are fine. figure: the ticket.
 * Batch: GW if the entry is the seventh of its group.
 * Answers 14, 1, 2, 4, 5, 19, 20, 15, 16, 6, 8, 9.
 */
struct kagutin_reply kagutin_pump_start(uint8_t *log, size_t log_size, const uint8_t *area, size_t area_size, uint8_t *state,
                                        size_t state_size, uint8_t *newest, size_t newest_size, uint8_t *batch, size_t batch_size,
                                        uint64_t writer, uint64_t pump, uint32_t second);
struct kagutin_reply kagutin_pump_stop(uint8_t *log, size_t log_size, const uint8_t *area, size_t area_size, uint8_t *state,
                                       size_t state_size, uint8_t *newest, size_t newest_size, uint8_t *batch, size_t batch_size,
                                       uint64_t writer, uint64_t pump, uint32_t second);

/* Change nothing. Answers 14, 1, 2, 4, 5, 20. */
struct kagutin_hours kagutin_pump_hours(const uint8_t *log, size_t log_size, const uint8_t *area, size_t area_size,
                                        const uint8_t *state, size_t state_size, const uint8_t *newest, size_t newest_size,
                                        uint64_t writer, uint64_t pump);

struct kagutin_services kagutin_pump_services(const uint8_t *log, size_t log_size, const uint8_t *area, size_t area_size,
                                              const uint8_t *state, size_t state_size, const uint8_t *newest, size_t newest_size,
                                              uint64_t writer, uint64_t pump, uint64_t interval);

#ifdef __cplusplus
}
#endif

#endif

/* ==== kagutin_alarms.h ==== */

/*
 * Alarms that come and clear: up to 48 open ones and the gravest of them, in
 * homes 24 to 29 of a Kagutin store. Stands on the store's calls alone; links
 * with kagutin.h's library. The calls are lent what the store's own are.
 *
 * An alarm has an identity (16 bits), a class from 1 to 9 and the second of its
 * arrival (32 bits). Gravest is the lowest class, then the earliest second, then
 * the lowest identity. It is stored in the same transaction as the list.
 *
 * After a power cut the open alarms are the arrivals whose commits came back,
 * less those cleared by commits that came back, provided that nobody else
 * stores to homes 24 to 29.
 */
#ifndef KAGUTIN_ALARMS_H
#define KAGUTIN_ALARMS_H


#ifdef __cplusplus
extern "C" {
#endif

#define KAGUTIN_ALARMS_HOME 24
#define KAGUTIN_ALARMS_HOMES 6
#define KAGUTIN_MAX_ALARMS 48
#define KAGUTIN_MIN_CLASS 1
#define KAGUTIN_MAX_CLASS 9

/* The most that an event writes: one group. */
#define KAGUTIN_ALARM_BATCH KAGUTIN_GW_SIZE

/* The answer, and the alarm; three zeros if none is open, and if not done. */
struct kagutin_alarm {
    uint64_t code; /* one of enum kagutin_answer */
    uint64_t identity;
    uint64_t alarm_class;
    uint64_t second;
};

/*
 * An alarm arrives: one transaction of an idle writer, six stores. An identity
 * is open once at a time. figure: the ticket.
 * Batch: GW if one of the six entries is the seventh of its group.
 * Answers 24 (class), then once for all six homes 1, 2, 4, 5, 19, 20, 24 (open
 * already), 25, 6, 8, 9.
 */
struct kagutin_reply kagutin_alarm_arrive(uint8_t *log, size_t log_size, const uint8_t *area, size_t area_size, uint8_t *state,
                                          size_t state_size, uint8_t *newest, size_t newest_size, uint8_t *batch,
                                          size_t batch_size, uint64_t writer, uint16_t identity, uint64_t alarm_class,
                                          uint32_t second);

/* An alarm clears, in the same way. Answers 1, 2, 4, 5, 19, 20, 24 (not open), 6, 8, 9. */
struct kagutin_reply kagutin_alarm_clear(uint8_t *log, size_t log_size, const uint8_t *area, size_t area_size, uint8_t *state,
                                         size_t state_size, uint8_t *newest, size_t newest_size, uint8_t *batch,
                                         size_t batch_size, uint64_t writer, uint16_t identity);

/*
 * The gravest open alarm, as it is kept in the first of the homes: class 0 if
 * none is open. Changes nothing. Answers 1, 2, 4, 5, 20.
 */
struct kagutin_alarm kagutin_alarm_gravest(const uint8_t *log, size_t log_size, const uint8_t *area, size_t area_size,
                                           const uint8_t *state, size_t state_size, const uint8_t *newest, size_t newest_size,
                                           uint64_t writer);

#ifdef __cplusplus
}
#endif

#endif

/* ==== kagutin_units.h ==== */

/*
 * Depth bands, pump hours and alarms on a store object: each call takes the
 * lock once, calls the library and runs its batch, as kgt_commit does. kagutin_bands.h,
 * kagutin_hours.h and kagutin_alarms.h have the promises and the numbers.
 *
 * The writer must have nothing open: each event is a transaction of its own. It
 * is durable once kgt_sync's mark reaches its ticket. If the log is full the
 * calls make room once and try again; with answer 8 holder is then the writer
 * that holds the log, and 10 means that the log is worn out. Answers 64 to 67
 * are the object's. Replies are read as kagutin_store.h says: unless a call is
 * done, its numbers are KGT_NOT_TOLD. [S-80]
 */
#ifndef KAGUTIN_UNITS_H
#define KAGUTIN_UNITS_H


#ifdef __cplusplus
extern "C" {
#endif

/* Rows as in kagutin_bands.h, KAGUTIN_BAND_SIZE bytes each. */
struct kgt_table {
    uint64_t code;
    uint64_t ticket; /* KGT_NOT_TOLD unless done */
    uint64_t mm;     /* 12, 13: the lowest millimetre in no row, in two or more; else KGT_NOT_TOLD */
    uint64_t holder;
    int error;
};

struct kgt_table kgt_bands_set(struct kagutin *store, uint64_t writer, const uint8_t *rows, size_t size);

struct kgt_band {
    uint64_t code;
    uint64_t from, to; /* millimetres, inclusive */
    uint64_t pumps;    /* that run: 0 to 4; KGT_NOT_TOLD, which is no number of pumps, unless done */
    int error;
};

struct kgt_band kgt_bands_look_up(struct kagutin *store, uint64_t writer, uint64_t mm);

struct kgt_ticket kgt_pump_start(struct kagutin *store, uint64_t writer, uint64_t pump, uint32_t second);
struct kgt_ticket kgt_pump_stop(struct kagutin *store, uint64_t writer, uint64_t pump, uint32_t second);

struct kgt_hours {
    uint64_t code;
    uint64_t starts, seconds; /* of the finished runs */
    int error;
};

struct kgt_services {
    uint64_t code;
    uint64_t due;  /* whole services, one each interval of run seconds */
    uint64_t left; /* seconds left over, below the interval */
    int error;
};

struct kgt_hours kgt_pump_hours(struct kagutin *store, uint64_t writer, uint64_t pump);
struct kgt_services kgt_pump_services(struct kagutin *store, uint64_t writer, uint64_t pump, uint64_t interval);

struct kgt_ticket kgt_alarm_arrive(struct kagutin *store, uint64_t writer, uint16_t identity, uint64_t alarm_class,
                                   uint32_t second);
struct kgt_ticket kgt_alarm_clear(struct kagutin *store, uint64_t writer, uint16_t identity);

/* What a panel shows: an alarm if shown is KGT_ALARM_OPEN, "no alarm" only for KGT_NONE_OPEN, else that it does not know. */
enum kgt_panel { KGT_ALARM_NOT_TOLD, KGT_NONE_OPEN, KGT_ALARM_OPEN };

struct kgt_alarm {
    uint64_t code;
    enum kgt_panel shown;
    uint64_t identity, alarm_class, second; /* KGT_NOT_TOLD unless an alarm is open */
    int error;
};

struct kgt_alarm kgt_alarm_gravest(struct kagutin *store, uint64_t writer);

#ifdef __cplusplus
}
#endif

#endif

/* ==== kagutin_memory.h ==== */

/*
 * A medium in ordinary memory that loses power on demand, for tests.
 *
 * Writes gather until a fence; a cut then picks, word by word or block by
 * block, which of them arrive. Or power fails after a number of bytes, in the
 * order in which they are written; the word or block that it stops in does not
 * arrive.
 */
#ifndef KAGUTIN_MEMORY_H
#define KAGUTIN_MEMORY_H


#ifdef __cplusplus
extern "C" {
#endif

struct kgt_memory {
    uint8_t *lasting; /* log area, then homes: what a cut leaves */
    uint8_t *written; /* the same with all writes since the last fence */
    size_t log_size, size;
    size_t low, high; /* written differs at most from low to below high */
    size_t unit;      /* bytes that arrive whole: 8, or 64 */
    uint64_t left;    /* bytes until power fails */
    bool off;         /* it has failed: nothing is written until the cut */
};

/* Both arrays have the size of both areas; lasting holds what is stored. */
void kgt_memory_init(struct kgt_memory *memory, uint8_t *lasting, uint8_t *written, size_t groups, size_t homes);

/* Blocks of 64 bytes arrive whole, not only words of 8; call it before the driver is taken. */
void kgt_memory_keep_blocks(struct kgt_memory *memory);

/* Its driver. It fails with error 1 while power is off. */
struct kgt_driver kgt_memory_driver(struct kgt_memory *memory);

/* Power fails after so many more bytes; UINT64_MAX: never. */
void kgt_memory_stop_after(struct kgt_memory *memory, uint64_t bytes);

/*
 * Power is cut and comes back. Of the words, or blocks, written since the last
 * fence those that lands() picks by their offset arrive; all if it is null.
 */
void kgt_memory_cut(struct kgt_memory *memory, bool (*lands)(void *context, size_t at), void *context);

#ifdef __cplusplus
}
#endif

#endif

/* ==== kagutin_fram.h ==== */

/*
 * A serial FRAM or MRAM as lasting memory: a template that needs one function
 * of the board, a transfer over SPI. Most such chips take these commands: 06
 * write enable, 02 write, 03 read, with an address of two or three bytes.
 *
 * Landing: bytes arrive at once and in order, so a fence has nothing to wait
 * for, and a cut stops inside a write. A group's first word, written last,
 * needs no more than that (docs/DRIVERS.md). The header does: its first twelve
 * bytes stand twice in the place of 64 bytes that it has, at 0 and at 32, each
 * time followed by their complements. A write goes to the older copy; loading
 * takes the whole one with the higher start. A format wipes the older copy
 * first, so that a cut inside it leaves the store as it was, or none. [S-83]
 */
#ifndef KAGUTIN_FRAM_H
#define KAGUTIN_FRAM_H


#ifdef __cplusplus
extern "C" {
#endif

struct kgt_fram {
    /*
     * One selection of the chip: sends the command, then sends out or reads in,
     * whichever is not null. Returns 0, or the board's error; also then no
     * byte reaches the chip after it has returned.
     */
    int (*transfer)(void *bus, const uint8_t *command, size_t command_size, const uint8_t *out, uint8_t *in, size_t size);
    void *bus;
    uint32_t base;          /* where the image begins in the chip */
    unsigned address_bytes; /* 2 or 3 */
    size_t log_size;
    unsigned newest; /* copy of the header that counts */
};

void kgt_fram_init(struct kgt_fram *fram, size_t groups, uint32_t base, unsigned address_bytes,
                   int (*transfer)(void *bus, const uint8_t *command, size_t command_size, const uint8_t *out, uint8_t *in,
                                   size_t size),
                   void *bus);

struct kgt_driver kgt_fram_driver(struct kgt_fram *fram);

#ifdef __cplusplus
}
#endif

#endif

/* ==== kagutin_file.h ==== */

/*
 * Image files as lasting memory, on POSIX systems.
 *
 * An image holds the log area (64 + 512 x G bytes), then the home blocks (64 x
 * D bytes), and nothing else. G and D stand in its header. It is written by
 * pwrite and fdatasync, or through a mapping and msync.
 *
 * Landing, written: blocks. A disk keeps sectors whole, and an aligned block
 * of 64 bytes lies inside one. Mapped: words, since a program can be killed
 * between two stores; a group's first word then follows after a sync of its
 * own (kgt_runner).
 *
 * A file is open in one place at a time: the lock belongs to the open file,
 * not to the process. After a failed write or sync, or if the file's size has
 * changed, the file is of no more use; close it, open it anew and open the
 * store on it again. What the failed sync has left in the cache is decided
 * then: opening writes the whole image back as it reads it, and syncs.
 * Functions that return false leave a message. [S-83]
 */
#ifndef KAGUTIN_FILE_H
#define KAGUTIN_FILE_H


#ifdef __cplusplus
extern "C" {
#endif

struct kgt_file {
    size_t groups, homes;
    int descriptor; /* -1: closed */
    uint8_t *map;   /* null: pwrite */
    size_t log_size, size;
    int failed; /* the error after which it is of no more use */
    char message[320];
};

/*
 * Makes an image of an empty store under a name that must be free: formatted
 * and synced without a name, then linked, so that a killed program leaves
 * nothing; under a temporary name in the same folder where the file system has
 * no files without one. Another process that creates the same name at the same
 * time fails. Takes heap memory while it formats.
 */
bool kgt_file_create(struct kgt_file *file, const char *path, size_t groups, size_t homes);

/*
 * Opens an image; its groups and homes are then known, and the disk holds what
 * is read from it. Refuses a file that is read-only, in use, no image, of
 * another size than its header says, or that cannot be written back.
 */
bool kgt_file_open(struct kgt_file *file, const char *path);

/*
 * Opens the image, or makes one of this shape where there is none: for every
 * start of a program. The message is that of the step that failed; an image of
 * another shape is refused.
 */
bool kgt_file_open_or_create(struct kgt_file *file, const char *path, size_t groups, size_t homes);

/* Maps an open file: its driver then writes memory, and fences by msync. */
bool kgt_file_map(struct kgt_file *file);

struct kgt_driver kgt_file_driver(struct kgt_file *file);

/* Closes it, also after a function has failed. What was not fenced may be lost. */
void kgt_file_close(struct kgt_file *file);

#ifdef __cplusplus
}
#endif

#endif

#endif
