/*
 * Kagutin: a crash-proof store of 64-byte blocks.
 *
 * Eight writers commit transactions of blocks into a log; power may fail at
 * any instant. The library works on copies of two areas in ordinary memory:
 *
 *   log    a 64-byte header and G groups of 512 bytes, G from 4 to 1,024
 *   area   D home blocks of 64 bytes, D from 1 to 65,535
 *   state  1,024 bytes that carry everything else from call to call
 *   newest 8 bytes for each home: the position of its newest committed entry,
 *          all ones for none, so that a read need not search the log
 *
 * Open, commit, trim and read are lent newest; open takes any bytes there.
 *
 * Homes 8 to 11 hold the list of rights: which homes each writer may store to
 * and read. Only writer 0 may store to those four, all may read them; without a
 * committed list every other home is open to all. kagutin_rights.h makes a
 * list, docs/HOMES.md says what lies in which home.
 *
 * It reaches lasting memory only by the batch: records that a call asks the
 * driver to write, in order. docs/FORMAT.md gives all bytes.
 *
 * The driver's duties. On them rests the promise that every opening brings
 * back the longest run of commits whose entries all persisted, with every
 * confirmed commit in it:
 *
 *  1. Run the batches in the order of the calls, each record in order. Every
 *     block of 64 bytes persists whole or not at all: a home (HW), the header
 *     (KW), each of a group's eight blocks (GW). A fence (FN) passes only when
 *     everything before it is in lasting memory; nothing after it may persist
 *     earlier. Between two fences any block may overtake another.
 *  2. Call confirm only when every fence of every batch so far has passed.
 *  3. Pass log, area, state and newest on untouched from call to call. Nobody
 *     else writes them, or the lasting memory.
 *  4. After the format and after every power cut, load both whole areas afresh
 *     and open, before any other call, until an opening is done. After a done
 *     opening do not open again before the next cut. What had not persisted at
 *     a cut must never persist later.
 *  5. Format once, before the first opening, and let its batch persist whole.
 *
 * Every call finishes. A refused call changes no lent byte, and its reply holds
 * the answer and zeros. Bytes of the batch past reply.size stay as they were.
 * All that passes from call to call is in the lent memory.
 *
 * Pointers must not be null, also with length 0, and no two lent buffers may
 * share a byte. No call asks this by itself: if it is not so, nothing that is
 * proved holds, and memory outside the buffers may be read and written. While
 * a program is being made, build the library with -DKAGUTIN_CHECK_BUFFERS (all
 * the files of dist/ have it): every call then asks it first, and answers 63
 * with zeros and touches nothing if it is not so. Lengths that are longer than
 * the memory behind the pointer nothing can find out.
 */
#ifndef KAGUTIN_H
#define KAGUTIN_H

#include <stddef.h>
#include <stdint.h>

#ifdef __cplusplus
extern "C" {
#endif

/* Of this header; kagutin_version() of kagutin_store.h tells that of the object that was linked. */
#define KAGUTIN_VERSION_MAJOR 1
#define KAGUTIN_VERSION_MINOR 0
#define KAGUTIN_VERSION_PATCH 0
#define KAGUTIN_VERSION "1.0.0"
#define KAGUTIN_VERSION_NUMBER (KAGUTIN_VERSION_MAJOR * 10000 + KAGUTIN_VERSION_MINOR * 100 + KAGUTIN_VERSION_PATCH)

/* Sizes in bytes. */
#define KAGUTIN_BLOCK_SIZE 64
#define KAGUTIN_HEADER_SIZE 64
#define KAGUTIN_GROUP_SIZE 512
#define KAGUTIN_STATE_SIZE 1024
#define KAGUTIN_POSITION_SIZE 8

/* Limits. */
#define KAGUTIN_MIN_GROUPS 4
#define KAGUTIN_MAX_GROUPS 1024
#define KAGUTIN_MIN_HOMES 1
#define KAGUTIN_MAX_HOMES 65535
#define KAGUTIN_WRITERS 8
#define KAGUTIN_GROUP_ENTRIES 7
#define KAGUTIN_MAX_START (UINT64_C(1) << 47)

/* Records of a batch: two bytes of mark, then what the record carries. */
#define KAGUTIN_GW_SIZE 516 /* "GW", ring slot (2), group (512) */
#define KAGUTIN_HW_SIZE 68  /* "HW", home (2), block (64) */
#define KAGUTIN_KW_SIZE 66  /* "KW", header (64) */
#define KAGUTIN_FN_SIZE 2   /* "FN" */

/* Batches of the calls whose size does not depend on G and D. */
#define KAGUTIN_STORE_BATCH KAGUTIN_GW_SIZE
#define KAGUTIN_COMMIT_BATCH KAGUTIN_GW_SIZE
#define KAGUTIN_FLUSH_BATCH (KAGUTIN_GW_SIZE + KAGUTIN_FN_SIZE)
#define KAGUTIN_TRIM_BATCH (KAGUTIN_KW_SIZE + KAGUTIN_FN_SIZE)

/*
 * Answers. A call asks its questions in the order 1 to 5, 19, 20, 6 to 8, 17, 18, 21, 10, 9. 11 to 16, 24 and 25
 * are given by what stands above the store: kagutin_bands.h, kagutin_hours.h, kagutin_alarms.h. [S-78]
 */
enum kagutin_answer {
    KAGUTIN_DONE = 0,
    KAGUTIN_BAD_LENGTH = 1,        /* a lent length is wrong */
    KAGUTIN_BAD_STATE = 2,         /* the state is out of order, or of other areas */
    KAGUTIN_BAD_HEADER = 3,        /* open: no store there: not formatted, of another shape or format, or damaged */
    KAGUTIN_BAD_WRITER = 4,        /* writer above 7 */
    KAGUTIN_BAD_HOME = 5,          /* home not below D */
    KAGUTIN_NOT_IDLE = 6,          /* begin, reserve: the writer has one open */
    KAGUTIN_NOT_OPEN = 7,          /* store, commit, abort: it has none open */
    KAGUTIN_FULL = 8,              /* no place left in the log for an entry */
    KAGUTIN_SHORT_BATCH = 9,       /* the batch cannot hold what the call writes */
    KAGUTIN_WORN_OUT = 10,         /* open, trim: the new start would exceed 2^47 */
    KAGUTIN_BAD_BANDS = 11,        /* bands_set: a bad strip or row; bands_look_up: above 9,999 mm, or no table */
    KAGUTIN_BAND_GAP = 12,         /* bands_set: a millimetre in no row */
    KAGUTIN_BAND_OVERLAP = 13,     /* bands_set: a millimetre in two rows or more */
    KAGUTIN_BAD_PUMP = 14,         /* pump above 7, or interval 0 */
    KAGUTIN_WRONG_PUMP_STATE = 15, /* pump_start while it runs, pump_stop while it does not */
    KAGUTIN_BAD_SECOND = 16,       /* before the pump's last event, or starts or total past 32 bits */
    KAGUTIN_NO_PLACES = 17,        /* reserve: n is 0 or more than are free */
    KAGUTIN_PROMISED = 18,         /* flush: it would leave too few for promises */
    KAGUTIN_STORE_DENIED = 19,     /* store: the writer has no right to store to this home */
    KAGUTIN_READ_DENIED = 20,      /* read: the writer has no right to read this home */
    KAGUTIN_WRONG_ROUND = 21,      /* settle, begin_round: a round is under way; step_round: none is, or 0 homes */
    KAGUTIN_BAD_ALARM = 24,        /* class out of range, an arrival already open, a clearing not open */
    KAGUTIN_ALARMS_FULL = 25,      /* an arrival while 48 are open */
    KAGUTIN_BAD_BUFFERS = 63       /* lent buffers overlap or a pointer is null; only in builds with KAGUTIN_CHECK_BUFFERS */
};

struct kagutin_reply {
    uint64_t code;   /* one of enum kagutin_answer */
    uint64_t figure; /* open: transactions; commit: ticket; confirm: mark */
    uint64_t size;   /* bytes written to the front of the batch */
};

/* What fills a log: its 7 x G places from the start to the end of group start + G - 1, each live, dead or free. */
struct kagutin_places {
    uint64_t code;     /* one of enum kagutin_answer */
    uint64_t live;     /* entries of open transactions, and of committed ones that are not trimmed */
    uint64_t dead;     /* aborted, or passed over by a flush, and not trimmed */
    uint64_t free;     /* from the next position on, promised ones included */
    uint64_t promised; /* of the free ones: to writers that reserved them */
    uint64_t holder;   /* writer whose open transaction begins first in the log; 8: none has entries there */
    uint64_t first;    /* position of that transaction's first entry; 0 with holder 8 */
};

/* What a driver is to do next for a batch: kagutin_next_action. But for a write area to from are 0. */
struct kagutin_action {
    uint64_t kind;   /* one of enum kagutin_kind; 63 as in enum kagutin_answer */
    uint64_t area;   /* a write: to the log (0) or to the homes (1), */
    uint64_t offset; /* at this byte of the area, */
    uint64_t size;   /* so many bytes, 8 to 512, */
    uint64_t source; /* which lie in the batch (0) or in the log copy (1), */
    uint64_t from;   /* from this byte on */
    uint64_t at;     /* the cursor to ask with when that is done: all records below this byte of the batch are carried out, */
    uint64_t headed; /* the first words of all groups below this number are written, */
    uint64_t stage;  /* and so many steps of the record at the byte are done */
};

enum kagutin_kind {
    KAGUTIN_ALL_DONE = 0, /* all records are written and every fence has passed */
    KAGUTIN_WRITE = 1,
    KAGUTIN_FENCE = 2,  /* wait until all earlier writes are in lasting memory */
    KAGUTIN_REFUSED = 3 /* no batch, or a cursor that none has; nothing is to be done */
};

/* Length of the log area of G groups, and of the data area of D homes. */
static inline size_t kagutin_log_size(size_t groups)
{
    return KAGUTIN_HEADER_SIZE + KAGUTIN_GROUP_SIZE * groups;
}

static inline size_t kagutin_area_size(size_t homes)
{
    return KAGUTIN_BLOCK_SIZE * homes;
}

/* Length of the newest positions of D homes. */
static inline size_t kagutin_newest_size(size_t homes)
{
    return KAGUTIN_POSITION_SIZE * homes;
}

/* Exactly what format writes; no call writes more. */
static inline size_t kagutin_format_batch(size_t groups, size_t homes)
{
    return KAGUTIN_GW_SIZE * groups + KAGUTIN_HW_SIZE * homes + 2 * KAGUTIN_KW_SIZE + 3 * KAGUTIN_FN_SIZE;
}

/* The most that settle can write: one HW for each home with an entry, FN. */
static inline size_t kagutin_settle_batch(size_t groups, size_t homes)
{
    size_t entries = KAGUTIN_GROUP_ENTRIES * groups;

    return KAGUTIN_HW_SIZE * (homes < entries ? homes : entries) + KAGUTIN_FN_SIZE;
}

/* The most that a step by so many homes can write: one HW for each, FN if it is the last. */
static inline size_t kagutin_step_batch(size_t groups, size_t homes, uint64_t step)
{
    size_t all = kagutin_settle_batch(groups, homes), some = step & SIZE_MAX;

    return step < all / KAGUTIN_HW_SIZE ? KAGUTIN_HW_SIZE * some + KAGUTIN_FN_SIZE : all;
}

/* The most that open can write: as settle, then the header, FN, every group and FN. */
static inline size_t kagutin_open_batch(size_t groups, size_t homes)
{
    return kagutin_settle_batch(groups, homes) + KAGUTIN_KW_SIZE + KAGUTIN_FN_SIZE + KAGUTIN_GW_SIZE * groups + KAGUTIN_FN_SIZE;
}

/* An answer in words. */
static inline const char *kagutin_answer_text(uint64_t code)
{
    switch (code) {
    case KAGUTIN_DONE: return "done";
    case KAGUTIN_BAD_LENGTH: return "a lent length is wrong";
    case KAGUTIN_BAD_STATE: return "the state is out of order";
    case KAGUTIN_BAD_HEADER: return "no store there: not formatted, of another shape or format, or damaged";
    case KAGUTIN_BAD_WRITER: return "no such writer";
    case KAGUTIN_BAD_HOME: return "no such home";
    case KAGUTIN_NOT_IDLE: return "the writer has a transaction open";
    case KAGUTIN_NOT_OPEN: return "the writer has no transaction open";
    case KAGUTIN_FULL: return "the log is full";
    case KAGUTIN_SHORT_BATCH: return "the batch is too short";
    case KAGUTIN_WORN_OUT: return "the new start would exceed 2^47";
    case KAGUTIN_BAD_BANDS: return "no table of depth bands, a bad row, or a depth above 9,999 mm";
    case KAGUTIN_BAND_GAP: return "a millimetre lies in no row";
    case KAGUTIN_BAND_OVERLAP: return "a millimetre lies in two rows or more";
    case KAGUTIN_BAD_PUMP: return "no such pump, or an interval of 0";
    case KAGUTIN_WRONG_PUMP_STATE: return "a start while the pump runs, or a stop while it does not";
    case KAGUTIN_BAD_SECOND: return "a second before the pump's last event, or a number past 32 bits";
    case KAGUTIN_NO_PLACES: return "not so many places are free";
    case KAGUTIN_PROMISED: return "too few places would be left for promises";
    case KAGUTIN_STORE_DENIED: return "no right to store to this home";
    case KAGUTIN_READ_DENIED: return "no right to read this home";
    case KAGUTIN_WRONG_ROUND: return "a round of settling is under way, or none is";
    case KAGUTIN_BAD_ALARM: return "a class out of range, an alarm already open, or one that is not";
    case KAGUTIN_ALARMS_FULL: return "48 alarms are open";
    case KAGUTIN_BAD_BUFFERS: return "lent buffers overlap or a pointer is null";
    default: return "not an answer";
    }
}

/*
 * Makes both copies those of an empty store with all homes zero.
 * Batch: KW of zeros, FN, every group blank and every home zeros, FN, header, FN.
 * Answers 1, 9.
 */
struct kagutin_reply kagutin_format(uint8_t *log, size_t log_size, uint8_t *area, size_t area_size, uint8_t *batch,
                                    size_t batch_size);

/*
 * Replays the committed transactions of the log into the area, empties the
 * log and writes the state and newest anew, whatever they held. All writers
 * are then idle, and no position is kept.
 * figure: number of transactions replayed.
 * Batch: HW of each home touched, rising, FN, KW, FN, every group blank, FN.
 * Answers 1, 3 (also for a header of the older format, mark 50 48), 10, 9.
 */
struct kagutin_reply kagutin_open(uint8_t *log, size_t log_size, uint8_t *area, size_t area_size, uint8_t *state,
                                  size_t state_size, uint8_t *newest, size_t newest_size, uint8_t *batch, size_t batch_size);

/* Opens a transaction of an idle writer. Answers 1, 2, 4, 6. */
struct kagutin_reply kagutin_begin(const uint8_t *log, size_t log_size, const uint8_t *area, size_t area_size, uint8_t *state,
                                   size_t state_size, uint64_t writer);

/*
 * Opens a transaction of an idle writer and promises it n places of the log:
 * its first n entries, the commit's own among them, are not answered 8. Free
 * places are those up to the end of the ring less those promised; a store to
 * the same home again and a refused call use none up. Commit and abort give
 * the rest back, an opening all. Answers 1, 2, 4, 6, 17.
 */
struct kagutin_reply kagutin_reserve(const uint8_t *log, size_t log_size, const uint8_t *area, size_t area_size, uint8_t *state,
                                     size_t state_size, uint64_t writer, uint64_t n);

/*
 * Drops the writer's transaction; its entries in the log never count, and
 * places promised to it are free again. Answers 1, 2, 4, 7.
 */
struct kagutin_reply kagutin_abort(const uint8_t *log, size_t log_size, const uint8_t *area, size_t area_size, uint8_t *state,
                                   size_t state_size, uint64_t writer);

/*
 * Adds a block for a home to the writer's transaction. The block is held in
 * the state; storing the same home again replaces it, another home first logs
 * the held one. A home may be stored any number of times; the last one counts.
 * Batch: GW if the entry logged is the seventh of its group, else nothing.
 * Answers 1, 2, 4, 5, 19, 7, 8, 9. 19: homes 8 to 11 are for writer 0; other
 * homes, while a list is committed, for the writers it gives them to. A list
 * counts from its commit, never while it is only stored. 8: flush, settle and trim make room, unless an
 * open transaction holds the log; the transaction stays open and as it was.
 */
struct kagutin_reply kagutin_store(uint8_t *log, size_t log_size, const uint8_t *area, size_t area_size, uint8_t *state,
                                   size_t state_size, const uint8_t *block, size_t block_size, uint8_t *batch, size_t batch_size,
                                   uint64_t writer, uint64_t home);

/*
 * Commits the writer's transaction: reads show it from now on, and it is
 * durable once a confirm returns its ticket or more. The writer is then idle.
 * For each home it wrote, newest gets the last entry's position.
 * figure: the ticket; 0 for a transaction without a store, which counts as no
 * commit. Tickets rise until the next cut and mean nothing after it.
 * Batch: as for store. Answers 1, 2, 4, 7, 8, 9.
 */
struct kagutin_reply kagutin_commit(uint8_t *log, size_t log_size, const uint8_t *area, size_t area_size, uint8_t *state,
                                    size_t state_size, uint8_t *newest, size_t newest_size, uint8_t *batch, size_t batch_size,
                                    uint64_t writer);

/*
 * Submits a part-filled group, if there is one, and fences. 18: the places
 * passed over are promised; store on, or let a writer commit or abort.
 * Batch: GW if so, FN. Answers 1, 2, 18, 9.
 */
struct kagutin_reply kagutin_flush(const uint8_t *log, size_t log_size, const uint8_t *area, size_t area_size, uint8_t *state,
                                   size_t state_size, uint8_t *batch, size_t batch_size);

/*
 * Says that every fence of every batch so far has passed.
 * figure: the durable mark; commits with that ticket or less are durable.
 * Answers 1, 2.
 */
struct kagutin_reply kagutin_confirm(const uint8_t *log, size_t log_size, const uint8_t *area, size_t area_size, uint8_t *state,
                                     size_t state_size);

/*
 * Writes home what is committed and fenced, so that trim can free its groups.
 * Batch: HW of each such home, rising, FN. Answers 1, 2, 21 (in a round), 9.
 */
struct kagutin_reply kagutin_settle(const uint8_t *log, size_t log_size, uint8_t *area, size_t area_size, uint8_t *state,
                                    size_t state_size, uint8_t *batch, size_t batch_size);

/*
 * Begins a round, which settles in small steps what a settle would now: it
 * fixes the fenced position that it covers. Every other call but settle may
 * come between its steps; an opening ends it. Writes nothing.
 * Answers 1, 2, 21 (a round is under way).
 */
struct kagutin_reply kagutin_begin_round(const uint8_t *log, size_t log_size, const uint8_t *area, size_t area_size,
                                         uint8_t *state, size_t state_size);

/*
 * Moves the round on by its next so many homes, or all that remain. The step
 * after which none remains (the first if there is none) ends the round: only
 * then trim can free its groups. A round over n homes ends after n / homes
 * steps at the latest, rounded up, or one. The round stays as it was at 9.
 * Batch: HW of each such home, rising; FN if the round ends.
 * Answers 1, 2, 21 (no round, or homes is 0), 9.
 */
struct kagutin_reply kagutin_step_round(const uint8_t *log, size_t log_size, uint8_t *area, size_t area_size, uint8_t *state,
                                        size_t state_size, uint8_t *batch, size_t batch_size, uint64_t homes);

/*
 * Frees the groups below the settled position that no open or committed
 * transaction reaches across; positions in them are no longer kept.
 * Batch: KW, FN if any is freed, else nothing. Answers 1, 2, 10, 9.
 */
struct kagutin_reply kagutin_trim(uint8_t *log, size_t log_size, const uint8_t *area, size_t area_size, uint8_t *state,
                                  size_t state_size, uint8_t *newest, size_t newest_size, uint8_t *batch, size_t batch_size);

/*
 * Gives a home's block as the writer sees it: its own newest one if its open
 * transaction stored one, else the newest committed one, found at the position
 * kept for the home. An idle writer reads what is committed. Only the block is
 * changed. Answers 1, 2, 4, 5, 20. 20: a list is committed and does not let the
 * writer read this home, which is not one of 8 to 11; also for its own block.
 */
struct kagutin_reply kagutin_read(const uint8_t *log, size_t log_size, const uint8_t *area, size_t area_size,
                                  const uint8_t *state, size_t state_size, const uint8_t *newest, size_t newest_size,
                                  uint8_t *block, size_t block_size, uint64_t writer, uint64_t home);

/*
 * Tells what fills the log. A held block has no place yet. Trims free what is
 * dead, settled or both up to the group in which the holder's first entry lies,
 * never beyond. Changes nothing. Answers 1, 2, with zeros in all other fields.
 */
struct kagutin_places kagutin_usage(const uint8_t *log, size_t log_size, const uint8_t *area, size_t area_size,
                                    const uint8_t *state, size_t state_size);

/*
 * Tells what a driver is to do next for a batch. Ask, carry the action out, ask
 * again with its cursor, until all is done; batch and log copy stay as they are
 * meanwhile. An action that failed may have been carried out or not: then open,
 * before all else. kgt_run of kagutin_store.h does this.
 *
 * landing: the medium keeps words of 8 bytes whole (0) or blocks of 64 (1); groups
 * and homes are G and D. A batch begins at byte 0 and stage 0. next is the number
 * of the next group: the eight bytes at offset 24 of the state as the batch's call
 * has left it (docs/FORMAT.md), 0 for a format. headed goes on from batch to batch
 * and is next for those of format and open. Refused: sizes or numbers out of
 * range, and at the first byte where no record begins; nothing is asked of a
 * record's bytes. On words:
 *
 *  - A group is written without its first word, which holds its number. At the
 *    next fence come a fence, the first words of the groups from headed to below
 *    next, which lie in the log copy where they lie in the log, and the fence.
 *  - A header of zeros, with which a format begins, is its first word, a fence,
 *    and then all of it. [S-85]
 */
struct kagutin_action kagutin_next_action(const uint8_t *batch, size_t batch_size, uint64_t landing, uint64_t groups,
                                          uint64_t homes, uint64_t next, uint64_t at, uint64_t headed, uint64_t stage);

#ifdef __cplusplus
}
#endif

#endif
