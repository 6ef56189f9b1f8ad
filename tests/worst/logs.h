/*
 * Worst cases: logs and strips over which the calls are dear, and the calls on them. host.c counts their instructions on this
 * machine under callgrind, board.c on an emulated board; object.c has the calls of the object.
 */
#ifndef WORST_LOGS_H
#define WORST_LOGS_H

#include <stdbool.h>

#include "kagutin_chains.h"

#ifndef WORST_HOMES
#define WORST_HOMES KAGUTIN_MAX_HOMES
#endif

enum {
    WORST_GROUPS = KAGUTIN_MAX_GROUPS,
    PLACES = KAGUTIN_GROUP_ENTRIES,
    CHAIN = KAGUTIN_MAX_CHAIN,
    FREE = 12 /* behind the list */,
    BEHIND_UNITS = 32
};

/* The owner's transaction is the one that is read, stored to and committed; the last writer may begin. */
enum { OWNER = 0, OTHER = 1, LAST = 7 };

/* What is lent to the next call. */
struct worst {
    size_t groups, homes, batch_size;
    uint8_t log[KAGUTIN_HEADER_SIZE + KAGUTIN_GROUP_SIZE * WORST_GROUPS], area[KAGUTIN_BLOCK_SIZE * WORST_HOMES];
    uint8_t state[KAGUTIN_STATE_SIZE], newest[KAGUTIN_POSITION_SIZE * WORST_HOMES], blocks[KAGUTIN_BLOCK_SIZE * CHAIN];
    uint8_t batch[KAGUTIN_GW_SIZE * WORST_GROUPS + KAGUTIN_HW_SIZE * WORST_HOMES + 256];
};

extern struct worst worst;

#define LENT_LOG worst.log, KAGUTIN_HEADER_SIZE + KAGUTIN_GROUP_SIZE *worst.groups
#define LENT_AREAS LENT_LOG, worst.area, KAGUTIN_BLOCK_SIZE *worst.homes
#define LENT_STATE worst.state, sizeof worst.state
#define LENT_NEWEST worst.newest, KAGUTIN_POSITION_SIZE *worst.homes
#define LENT_BLOCK worst.blocks, KAGUTIN_BLOCK_SIZE
#define LENT_BLOCKS worst.blocks, sizeof worst.blocks
#define LENT_BATCH worst.batch, worst.batch_size

/* How the log is filled: commits by writers in turn; eight transactions that overlap all the way; the owner's open one; another's
   open one; transactions that are aborted, and some commits. */
enum { COMMITS, OVERLAP, OWN, OTHERS, DROPPED };

/* For which homes: all, in turn; those of one word; each in another word than the last; those from 4,096 on; two. */
enum { SPREAD, ONE_WORD, APART, HIGH, TWO };

enum {
    WRAPPED = 1, /* the log begins in the middle of the ring */
    LISTED = 2,  /* a list of rights is committed in it */
    FENCED = 4,
    HALF = 8, /* settled when it was half full */
    SETTLED = 16,
    OWNED = 32,    /* the owner's transaction is open, since the first position */
    PROMISED = 64, /* it has places promised */
    ACTIVE = 128,  /* so are those of the other writers */
    IN_ROUND = 256,
    GROUP_ONE = 512, /* since the second group */
    LIST_OWN = 1024, /* the owner stores a list, too */
    REVERSED = 2048, /* who began last commits first */
    ACROSS = 4096,   /* a transaction lies across a round that is under way, and the owner's fills the rest */
    UNITS = 8192     /* the units have their tables in it, and other entries are for homes behind theirs */
};

#define SINCE_ONE (FENCED | SETTLED | WRAPPED | GROUP_ONE | OWNED | ACTIVE)

#define ALL_OPEN (WRAPPED | LISTED | OWNED | PROMISED | ACTIVE | IN_ROUND)

/* A log: how it is filled, and what damage does to it then, if any. */
struct worst_log {
    const char *name;
    void (*damage)(void);
    unsigned fill, writers, blocks, homes, left, flags;
};

extern const struct worst_log worst_logs[];
extern const size_t worst_log_count;

/* Formats a store of this shape and fills its log; false if the shape has no such log. worst_restore lends it again, as it was then. */
bool worst_make(const struct worst_log *log, size_t groups, size_t homes);
void worst_restore(void);

/* A call with what comes before it, which does not count. It returns its answer. */
struct worst_call {
    const char *name, *variant;
    void (*prepare)(void);
    uint64_t (*run)(void);
};

extern const struct worst_call worst_calls[];
extern const size_t worst_call_count;

/* Commits the tables of the units; again, when they have been settled, so that the log has their homes too. */
extern void (*worst_units)(bool again);

/* A home that no log has an entry for, the first of seven. */
uint64_t worst_untouched(void);

/* A number of the state. */
uint64_t worst_number(size_t at);

/* The damages; a place is an entry's offset from the log's start. */
void share_first(void);
void last_astray(void);
void all_astray(void);
void nest(void);
void nest_astray(void);
void junk_homes(void);
void junk_bits(void);
void junk_counts(void);
void sought_unused(void);
void sought_closing(void);
void near_misses(void);
void near_bands(void);
void near_alarms(void);
void near_pumps(void);
void strip_out_of_order(void);
void positions_at_start(void);
void positions_anywhere(void);
void turns_wrong(void);
void tags_anyhow(void);

#endif
