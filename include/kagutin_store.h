/*
 * A Kagutin store as one object: it holds the lent memory, runs every batch
 * on a driver, makes room in a full log and shuts itself after a failure of
 * the driver. Plain C99, no heap; kagutin.h has the calls below it.
 *
 *     static uint8_t memory[KGT_MEMORY_SIZE(16, 32)];
 *     static struct kagutin store;
 *
 *     static bool start(struct kgt_driver driver)    // after every start of the device
 *     {
 *         return kgt_init(&store, memory, sizeof memory, 16, 32, driver).code == KAGUTIN_DONE
 *             && kgt_open(&store).code == KAGUTIN_DONE;
 *     }
 *
 *     static bool keep(const uint8_t *block)         // writer 0, home 7; true: no power cut takes it away
 *     {
 *         if (kgt_begin(&store, 0).code != KAGUTIN_DONE)
 *             return false;
 *         if (kgt_store(&store, 0, 7, block).code == KAGUTIN_DONE && kgt_commit_sync(&store, 0).code == KAGUTIN_DONE)
 *             return true;
 *         kgt_abort(&store, 0);                      // if it is still open
 *         return false;
 *     }
 *
 * Replies. Every call has code, 0 for done. Its other fields have one meaning
 * each, and unless the call is done they promise nothing: no mark ever reaches
 * the ticket, the mark reaches no ticket, more is false, numbers are
 * KGT_NOT_TOLD. So `kgt_sync(&store).mark >= ticket` is true only of a commit
 * that is durable (a commit of nothing has ticket 0, and nothing to lose). A
 * ticket belongs to its opening: after the next, drop it. Marks go on rising,
 * and what was not durable may be gone.
 *
 * Tasks. Every call but kgt_init, kgt_set_lock, kgt_set_room and
 * kgt_allow_list_stores takes the lock, if one is set, once, and gives it back
 * before it returns; without a lock all calls must come from one task. Begin, reserve, store, commit, abort, read,
 * sync, maintain and usage may come from any task at any time; a writer belongs
 * to one task at a time. Format and open come from one task before the others
 * start, or after a failure. No call may come from an interrupt or a signal
 * handler, or from a driver's function: hand the block to a task. A call holds
 * the lock while its driver writes, so the lock should pass priority on.
 *
 * Stack. By default a call that finds the log full settles it, on its caller's
 * stack; kgt_set_room leaves that to the task that maintains. docs/DRIVERS.md
 * has the sizes of both, by call.
 */
#ifndef KAGUTIN_STORE_H
#define KAGUTIN_STORE_H

#include <stdbool.h>

#include "kagutin.h"

#ifdef __cplusplus
extern "C" {
#endif

/* ---- drivers ---- */

/* The two areas of lasting memory: header and groups; home blocks. */
enum kgt_area { KGT_LOG, KGT_HOMES };

/*
 * What the medium keeps whole if power fails while it is written: aligned words
 * of 8 bytes, or aligned blocks of 64.
 */
enum kgt_landing { KGT_LANDS_WORDS, KGT_LANDS_BLOCKS };

/*
 * A driver: three functions that return 0, or an error of the driver's own.
 *
 * load   first decides what lasting memory holds, then copies it in: all that it
 *        gives is still there after a power cut, and no earlier write arrives
 *        any more. A store opened again after a failure, without a cut, relies
 *        on this alone. So before it reads, load waits for transfers under way
 *        or calls them off, and writes a cache back or drops it.
 * write  writes at an offset of an area; offsets and sizes are multiples of 8.
 *        Its bytes may arrive at any time up to the next fence, before or after
 *        other writes, in parts no smaller than the landing says; also if it
 *        fails.
 * fence  returns 0 when all earlier writes are in lasting memory. If it fails,
 *        any of them may be.
 *
 * docs/DRIVERS.md says why this is enough, and what to do on other media. [S-77]
 */
struct kgt_driver {
    void *context;
    int (*load)(void *context, enum kgt_area area, size_t at, uint8_t *bytes, size_t size);
    int (*write)(void *context, enum kgt_area area, size_t at, const uint8_t *bytes, size_t size);
    int (*fence)(void *context);
    enum kgt_landing landing;
};

/* ---- sizes ---- */

/* A number as a size_t without a cast, which C++ would be warned of. */
#define KGT_BYTES(number) sizeof(char[number])

#define KGT_LOG_SIZE(groups) (KGT_BYTES(KAGUTIN_HEADER_SIZE) + KGT_BYTES(KAGUTIN_GROUP_SIZE) * (groups))
#define KGT_HOMES_SIZE(homes) (KGT_BYTES(KAGUTIN_BLOCK_SIZE) * (homes))
#define KGT_NEWEST_SIZE(homes) (KGT_BYTES(KAGUTIN_POSITION_SIZE) * (homes))

/* The longest batch of any call but format: open's. */
#define KGT_TOUCHED(groups, homes)                                                                                               \
    (KGT_BYTES(1) * (homes) < KGT_BYTES(KAGUTIN_GROUP_ENTRIES) * (groups) ? KGT_BYTES(1) * (homes)                               \
                                                                          : KGT_BYTES(KAGUTIN_GROUP_ENTRIES) * (groups))
#define KGT_OPEN_BATCH(groups, homes)                                                                                            \
    (KAGUTIN_HW_SIZE * KGT_TOUCHED(groups, homes) + KAGUTIN_FN_SIZE + KAGUTIN_KW_SIZE + KAGUTIN_FN_SIZE                          \
     + KGT_BYTES(KAGUTIN_GW_SIZE) * (groups) + KAGUTIN_FN_SIZE)
#define KGT_BATCH_SIZE(groups, homes) KGT_OPEN_BATCH(groups, homes)

/* Bytes of memory that a store of this shape needs, and more for a format. */
#define KGT_MEMORY_SIZE(groups, homes)                                                                                           \
    (KGT_LOG_SIZE(groups) + KGT_HOMES_SIZE(homes) + KAGUTIN_STATE_SIZE + KGT_NEWEST_SIZE(homes) + KGT_BATCH_SIZE(groups, homes))
#define KGT_FORMAT_SIZE(groups, homes)                                                                                           \
    (KGT_BYTES(KAGUTIN_GW_SIZE) * (groups) + KGT_BYTES(KAGUTIN_HW_SIZE) * (homes) + 2 * KAGUTIN_KW_SIZE + 3 * KAGUTIN_FN_SIZE)

/* ---- answers beyond those of kagutin.h ---- [S-75] */

enum kgt_answer {
    KGT_CLOSED = 64,        /* the store has not been opened */
    KGT_DRIVER_FAILED = 65, /* in this or an earlier call. Open again. */
    KGT_LOCK_FAILED = 66,   /* the lock was not given; nothing was done */
    KGT_NOT_INIT = 67,      /* kgt_init was not called, or was refused */
    KGT_LIST_GUARDED = 68   /* a store to homes 8 to 11, which kgt_set_rights stores; nothing was done */
};

/* Any answer in words. */
const char *kgt_answer_text(uint64_t code);

/* KAGUTIN_VERSION as it was when the object was compiled. [S-79] */
const char *kagutin_version(void);

/* ---- replies ---- */

/* A number that a call tells only if it is done; no done call tells this one. */
#define KGT_NOT_TOLD UINT64_MAX

/* The holder where no open transaction holds the log, and in every reply but those of a full log. */
#define KGT_NO_HOLDER KAGUTIN_WRITERS

struct kgt_reply {
    uint64_t code;   /* 0: done */
    uint64_t holder; /* 8 and 17: the writer whose open transaction holds the log's oldest groups */
    int error;       /* 65: the driver's; else 0 */
};

struct kgt_opened {
    uint64_t code;
    uint64_t commits; /* transactions brought back from the log; KGT_NOT_TOLD unless done */
    int error;
};

struct kgt_ticket {
    uint64_t code;
    uint64_t
        ticket; /* the commit is durable once a mark is this or more; KGT_NOT_TOLD, which no mark reaches, if there is no commit */
    uint64_t holder;
    int error;
};

struct kgt_mark {
    uint64_t code;
    uint64_t mark; /* commits with this ticket or less are durable; 0 unless done */
    int error;
};

struct kgt_progress {
    uint64_t code;
    bool more; /* there is more to do; false unless done */
    int error;
};

/* ---- running batches ---- */

enum kgt_kind { KGT_GW, KGT_HW, KGT_KW, KGT_FN };

struct kgt_record {
    enum kgt_kind kind;
    size_t place;         /* GW: ring slot; HW: home; else 0 */
    const uint8_t *bytes; /* what is written; none for FN */
    size_t size;          /* of the whole record in the batch */
};

/* Reads the record at the front of a batch; false if there is none whole. */
bool kgt_read_record(const uint8_t *batch, size_t size, size_t groups, size_t homes, struct kgt_record *record);

/*
 * Runs batches on a driver: what kagutin_next_action answers is carried out, and
 * it is asked again. Where blocks do not land whole, a group's first word, which
 * holds its number, is written after a fence that follows the rest of it; until
 * then the slot is a hole. That word lies in the log copy, and the state has the
 * number of the next group: both are those that the calls are lent. Where only
 * blocks are written, or only a format is run, they may be null.
 */
#define KGT_BAD_BATCH (-1000) /* the error for a batch that cannot be read [S-82] */

struct kgt_runner {
    struct kgt_driver driver;
    size_t groups, homes;
    const uint8_t *log, *state;
    uint64_t headed; /* first words of all groups below this number are written; KGT_NONE_WAITS: of all there are */
};

#define KGT_NONE_WAITS UINT64_MAX

/* Before every opening and every format: no first word waits. */
void kgt_runner_init(struct kgt_runner *runner, struct kgt_driver driver, const uint8_t *log, const uint8_t *state, size_t groups,
                     size_t homes);

/*
 * Each returns 0, or the error at which it stopped; then open. A batch is run
 * before the next call is made; a record is one that kgt_read_record has found
 * in a batch.
 */
int kgt_run_record(struct kgt_runner *runner, const struct kgt_record *record);
int kgt_run(struct kgt_runner *runner, const uint8_t *batch, size_t size);
int kgt_run_fence(struct kgt_runner *runner);

/* ---- the object ---- */

enum kgt_condition { KGT_IS_UNUSABLE, KGT_IS_CLOSED, KGT_IS_OPEN, KGT_HAS_FAILED };

/* Who makes room in a full log: the call that finds it full, or only the task that calls kgt_maintain. */
enum kgt_room { KGT_ROOM_AT_ONCE, KGT_ROOM_BY_MAINTAIN };

struct kagutin {
    struct kgt_runner runner;
    uint8_t *log, *area, *state, *newest, *batch; /* parts of the lent memory */
    size_t log_size, area_size, newest_size, batch_size;
    enum kgt_condition condition;
    enum kgt_room room;
    bool list_stores; /* kgt_store may store to the list of rights */
    int error;        /* of the driver, once it has failed */
    int (*lock)(void *context);
    void (*unlock)(void *context);
    void *lock_context;
};

/*
 * Takes KGT_MEMORY_SIZE(groups, homes) bytes of memory or more, and a driver;
 * both stay lent to the store. Touches no lasting memory. Forgets an earlier
 * lock and earlier settings. Answer 1: a size is wrong, groups or homes are out of
 * range, or a function of the driver is null; every call then answers 67. [S-75]
 */
struct kgt_reply kgt_init(struct kagutin *store, uint8_t *memory, size_t size, size_t groups, size_t homes,
                          struct kgt_driver driver);

/*
 * Hooks around every call; lock returns 0 when it has the lock. Null: none.
 * After kgt_init and before the tasks start. Answers 67, and 1 if only one of
 * the two is null.
 */
struct kgt_reply kgt_set_lock(struct kagutin *store, int (*lock)(void *context), void (*unlock)(void *context), void *context);

/*
 * KGT_ROOM_BY_MAINTAIN: writers' calls and sync never settle. In a full log they
 * answer 8, 17 or 18 at once and leave making room to one task that calls
 * kgt_sync and then kgt_maintain until nothing is left. That task alone needs
 * the stack of a settle. After kgt_init and before the tasks start. Answer 67. [S-76]
 */
struct kgt_reply kgt_set_room(struct kagutin *store, enum kgt_room room);

/*
 * Lets kgt_store of writer 0 store to homes 8 to 11, block by block. Where D is
 * 12 or more any byte there that is not zero is a list of rights, and one that
 * was not meant so locks every writer out of all other homes: so without this
 * such a store is answered 68, and kgt_set_rights is the way to a list. After
 * kgt_init and before the tasks start. Answer 67.
 */
struct kgt_reply kgt_allow_list_stores(struct kagutin *store);

/*
 * Makes lasting memory an empty store with all homes zero. Once in a device's
 * life; scratch has KGT_FORMAT_SIZE(groups, homes) bytes and is free again
 * afterwards. The store is then closed. After a failure it loads the header
 * first, so that no earlier write arrives any more. Answers 9 (scratch is too
 * short; the store is as it was), 65, 66, 67.
 */
struct kgt_reply kgt_format(struct kagutin *store, uint8_t *scratch, size_t size);

/*
 * Loads lasting memory and brings back the longest run of commits that
 * persisted; transactions open before are gone, as in a power cut. Needed
 * after init and after a failure. Answers 3 (no store there, one of another
 * shape or of an older format), 10 (worn out), 65, 66, 67. [S-73]
 */
struct kgt_opened kgt_open(struct kagutin *store);

/*
 * As the calls of kagutin.h, with their answers and 64, 65, 66, 67. A block has
 * 64 bytes; a read that is not done leaves it as it was.
 *
 * If the log is full, store, commit and reserve flush, settle and trim once and
 * try again; 10 then means that the log is worn out. If that frees nothing they
 * answer 8, and holder is the writer whose open transaction holds the log's
 * oldest groups: commit or abort that one; if it is this writer itself, its
 * transaction is too long for the log. The transaction stays open and as it
 * was. 19 and 20 come from the list of rights; kagutin_rights.h. 68 comes before
 * all others: a store of writer 0 to homes 8 to 11 where D is 12 or more, unless
 * kgt_allow_list_stores was called; the transaction goes on. [S-73]
 */
struct kgt_reply kgt_begin(struct kagutin *store, uint64_t writer);
struct kgt_reply kgt_store(struct kagutin *store, uint64_t writer, uint64_t home, const uint8_t *block);
struct kgt_ticket kgt_commit(struct kagutin *store, uint64_t writer);
struct kgt_reply kgt_abort(struct kagutin *store, uint64_t writer);
struct kgt_reply kgt_read(struct kagutin *store, uint64_t writer, uint64_t home, uint8_t *block);

/*
 * As begin, and promises the transaction so many places of the log: a store or
 * commit whose entry is among its first so many is never answered 8. A
 * transaction of n stores has at most n entries. Unused places come back at
 * commit and abort. If too few are free it makes room once. Answer 17: too few
 * still, or places is 0; holder as for 8; the writer stays idle. 10: worn out.
 */
struct kgt_reply kgt_reserve(struct kagutin *store, uint64_t writer, uint64_t places);

/*
 * Flush, fence, confirm. Answer 18: the flush would pass over places that are
 * promised, and making room did not help; nothing is confirmed. Sync again when
 * a transaction that reserved places has ended. 10: worn out. [S-74]
 */
struct kgt_mark kgt_sync(struct kagutin *store);

/*
 * Commit and sync in one. Done: the commit is durable. Refused with the commit's
 * answers, the transaction is as after a refused commit, and ticket is
 * KGT_NOT_TOLD. 18 with a ticket, or 10 (worn out): committed, and durable once a
 * later sync's mark reaches it. [S-74]
 */
struct kgt_ticket kgt_commit_sync(struct kagutin *store, uint64_t writer);

/*
 * Frees log space in the background: writes home what is committed and fenced,
 * and trims. most bounds the homes that one call writes; it begins a round if
 * none is under way and something is to be settled, moves it on by one step,
 * and trims when it is over. 0: no bound, a whole settle. Go on while there is
 * more. Other calls may come between; a full log makes them finish the round,
 * unless kgt_set_room says otherwise. Answers 10, 64, 65, 66, 67. [S-76]
 */
struct kgt_progress kgt_maintain(struct kagutin *store, uint64_t most);

/*
 * Tells what fills the log at this moment, and which writer holds it back; dead
 * places and those of committed transactions come free by sync and maintain, up
 * to the group in which the holder's transaction begins. A held block has no
 * place yet. Writes nothing; looks at the tags of the log as a trim does.
 * Answers 64, 65, 66, 67; places then has this code, zeros, and holder 8.
 */
struct kgt_reply kgt_usage(struct kagutin *store, struct kagutin_places *places);

#ifdef __cplusplus
}
#endif

#endif
