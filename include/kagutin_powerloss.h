/*
 * A kit for a driver of your own: does it keep the duties that kagutin_store.h
 * and docs/DRIVERS.md give to load, write and fence, whenever power fails and
 * after every failure of the medium?
 *
 * It records what a store asks of a driver, call by call, in histories that are
 * scripted or drawn from a seed; asks the same of your driver, cuts the power or
 * lets the medium fail, loads, and holds every word or block that comes back
 * against what the duties allow. What is wrong is told as the duty that is
 * broken, with the shortest history found that still shows it.
 *
 * On a PC the driver stands on a medium that can be cut, kagutin_sim.h or one of
 * yours (struct kgt_medium): kgt_powerloss_run. On a board a relay cuts the
 * power, and the kit goes on after each start with what it wrote down (struct
 * kgt_relay): kgt_powerloss_on_board. Plain C99, no heap. [S-86]
 */
#ifndef KAGUTIN_POWERLOSS_H
#define KAGUTIN_POWERLOSS_H

#include "kagutin_store.h"

#ifdef __cplusplus
extern "C" {
#endif

/* ---- what is found ---- */

enum kgt_duty {
    KGT_DUTIES_KEPT,
    KGT_DUTY_FENCE,       /* fence returns when every earlier write is in lasting memory */
    KGT_DUTY_WRITE_TIME,  /* write: its bytes arrive up to the next fence, not after it */
    KGT_DUTY_WRITE_WHOLE, /* write: its bytes arrive in parts no smaller than the landing says */
    KGT_DUTY_LOAD_STAYS,  /* load: all that it gives is still there after a cut */
    KGT_DUTY_LOAD_LAST,   /* load: no earlier write arrives any more */
    KGT_DUTY_LOAD_COPIES, /* load copies a part of an area in: what was written there */
    KGT_DUTY_ANSWER,      /* each returns 0, or an error of its own when the medium has failed */
    KGT_DUTY_NOT_TRIED    /* the kit could not try: memory too small, or its notes cannot be kept */
};

/* A duty in the words of docs/DRIVERS.md. */
const char *kgt_duty_text(enum kgt_duty duty);

/* ---- a medium that can be cut, for a PC ---- */

/* Which of the parts that are written and not yet in lasting memory arrive at a cut. */
enum kgt_choice { KGT_NONE_ARRIVE, KGT_ALL_ARRIVE, KGT_SOME_ARRIVE };

struct kgt_medium {
    void *context;
    void (*clear)(void *context); /* power is on, nothing is under way, every byte is zero */
    /* Power fails after so many more landings, and the call with this number from here on fails once; UINT64_MAX and 0: never. */
    void (*arm)(void *context, uint64_t landings, uint64_t failing_call);
    /* Landings (bytes, words or blocks that reached lasting memory) and calls since it was armed. */
    void (*count)(void *context, uint64_t *landings, uint64_t *calls);
    bool (*has_power)(void *context);
    /* Power is cut and comes back. Returns how many parts the choice was about. The seed picks some. */
    size_t (*cut)(void *context, enum kgt_choice choice, uint64_t seed);
    void (*wait)(void *context); /* time passes: what the medium does by itself is over. May be null. */
};

/* ---- a relay, for a board ---- */

#define KGT_RELAY_NOTE 64u /* bytes of a note; there are two places for one */

struct kgt_relay {
    void *context;
    /* Asks for the cut and returns; the kit works on, and at the end asks again and again, until power is gone. */
    void (*cut)(void *context);
    /*
     * Notes in lasting memory that is not under test: backup registers, another
     * chip, a PC at a serial line. place is 0 or 1; a cut may spoil the place that
     * is being written, not the other. Each returns 0, or an error.
     */
    int (*note)(void *context, unsigned place, const uint8_t *bytes, size_t size);
    int (*recall)(void *context, unsigned place, uint8_t *bytes, size_t size);
};

/* ---- the kit ---- */

#define KGT_POWERLOSS_CALLS 192u /* calls of the driver in a history, at most */

enum kgt_called { KGT_CALLED_START, KGT_CALLED_WRITE, KGT_CALLED_FENCE };

/* A call of a history. Start: the driver is started, and loads both areas as an opening does. */
struct kgt_powerloss_call {
    uint8_t called;  /* enum kgt_called */
    uint8_t area;    /* write: enum kgt_area */
    uint8_t taken;   /* it belongs to the history as it has been shortened */
    uint8_t outcome; /* 0: not made, 1: returned 0, 2: failed, or was under way at the cut */
    uint32_t at, size, bytes;
    int error;
};

/* Where and how a history is broken off. */
struct kgt_powerloss_end {
    unsigned call;          /* in this call of the history */
    uint64_t landings;      /* after so many landings of it; UINT64_MAX: behind it */
    uint64_t failing;       /* 0, or the medium fails at this call of its own inside it, and the store is opened again */
    bool on;                /* after that failure the history goes on to its end; then power is cut */
    enum kgt_choice choice; /* at the cut */
    uint64_t choice_seed;   /* picks some */
    unsigned fences;        /* so many more fences before the cut */
    bool wait;              /* time passes before the cut */
};

/* A word or block that came back as it must not. */
struct kgt_powerloss_fault {
    enum kgt_duty duty;
    enum kgt_area area;
    size_t at, size;
    uint8_t found[KAGUTIN_BLOCK_SIZE], right[KAGUTIN_BLOCK_SIZE]; /* right: one of those that are allowed */
    unsigned writer;    /* the call that wrote right; KGT_POWERLOSS_CALLS: a load gave it */
    const char *remark; /* more on how the duty is broken, or null */
    unsigned call;      /* of an answer: which one, and error is what it returned */
    int error;
    bool uncut;         /* seen by the load of this call, with no cut before it */
    unsigned elsewhere; /* the call that wrote what was found, to another place; KGT_POWERLOSS_CALLS: none */
    uint32_t elsewhere_at;
};

struct kgt_powerloss {
    /* Yours. start is called after each power-on and gives the driver, with nothing known from before. */
    struct kgt_driver (*start)(void *context);
    void *context;
    struct kgt_medium medium;                     /* on a PC */
    struct kgt_relay relay;                       /* on a board */
    void (*say)(void *context, const char *text); /* gets the report; null: none */
    void *say_context;
    bool bytes_in_order; /* the medium takes bytes one by one, lowest first, and the driver keeps the header's first word whole */
    bool format_once;    /* the driver starts on nothing but a formatted store, as that for files: no cut inside a format */
    const char *script;  /* a history of yours to begin with, or null; docs/DRIVERS.md has its letters */
    uint64_t seed;
    unsigned histories; /* to be drawn from the seed, after the scripted ones */
    unsigned every;     /* cuts after every so many landings inside a call; 1: after each */

    /* What was found. */
    struct kgt_powerloss_fault fault;
    struct kgt_powerloss_end end;
    struct kgt_powerloss_call calls[KGT_POWERLOSS_CALLS]; /* the history; the shortest one at the end */
    unsigned made;                                        /* calls in it */
    unsigned number;                                      /* which history: scripted ones first */
    uint64_t trials;
    size_t open; /* parts that the last cut had a choice of */

    /* The kit's own. */
    size_t groups, homes, log_size, image_size, pool_size, pool_used;
    uint8_t *store_memory, *scratch, *given, *before, *expected, *loaded, *pool;
    size_t store_size, scratch_size;
    struct kagutin store;
    struct kgt_driver driver;
    uint64_t random;
    unsigned since, previous; /* first call after the last load, and after the one before it */
    bool known;               /* a load has been made */
    unsigned prelude;         /* on a board: the first call behind the format */
};

/* Lent memory: a store of this shape, four images of it and the bytes of a history, room for so many groups. */
#define KGT_POWERLOSS_SIZE(groups, homes, written)                                                                               \
    (KGT_MEMORY_SIZE(groups, homes) + KGT_FORMAT_SIZE(groups, homes) + 4 * (KGT_LOG_SIZE(groups) + KGT_HOMES_SIZE(homes))        \
     + KGT_BYTES(KAGUTIN_GROUP_SIZE) * (written))

/*
 * Clears the kit and takes the memory; then set start, medium or relay, and what
 * else you want. 4 groups and 8 homes are enough, and room for 48 groups. False if
 * the shape is none or the memory too small; a run then tells KGT_DUTY_NOT_TRIED.
 */
bool kgt_powerloss_init(struct kgt_powerloss *kit, uint8_t *memory, size_t size, size_t groups, size_t homes);

/* Every history, every cut, every failure. True: no duty was seen broken. */
bool kgt_powerloss_run(struct kgt_powerloss *kit);

/*
 * After each start of the board: judges the cut that has just been, begins the
 * next trial and does not return from it; the relay ends it. Returns when all
 * is tried, or a broken duty is found and its history shortened: true if none was.
 */
bool kgt_powerloss_on_board(struct kgt_powerloss *kit);

#ifdef __cplusplus
}
#endif

#endif
