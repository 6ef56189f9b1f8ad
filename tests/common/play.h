/*
 * A random workload on a store object, and the book of its commits: after any
 * end it says whether the homes are those after a run of commits that has
 * every confirmed one in it.
 */
#ifndef TESTS_PLAY_H
#define TESTS_PLAY_H

#include "kagutin_store.h"

#define PLAY_MOST_COMMITS 65536 /* between two openings */
#define PLAY_MOST_HOMES 64

struct play_commit {
    uint64_t transaction; /* its blocks are made from this number */
    uint64_t homes;       /* one bit each; home 0 holds the commit's own number */
};

struct play {
    struct kagutin *store;
    uint64_t random, homes;
    bool open[KAGUTIN_WRITERS], reserved[KAGUTIN_WRITERS];
    uint64_t sure[KAGUTIN_WRITERS]; /* calls of a writer that cannot be answered 8, by its promise */
    struct play_commit writers[KAGUTIN_WRITERS];
    uint64_t opened;                                 /* commits up to the last opening */
    uint64_t blocks[PLAY_MOST_HOMES];                /* the homes then: numbers of transactions */
    struct play_commit commits[PLAY_MOST_COMMITS];   /* those since */
    volatile uint64_t started, committed, confirmed; /* commits: asked for, done, sure to come back */
    uint64_t transactions;
    uint64_t full;     /* answers 8 and 17 */
    const char *wrong; /* what the store did wrong, or null */
};

void play_start(struct play *play, struct kagutin *store, size_t homes, uint64_t seed);

/* A number below the limit. */
uint64_t play_random(struct play *play, uint64_t limit);

/* Some steps of work. False if the driver failed or something was wrong. */
bool play_work(struct play *play, unsigned steps);

/* The store has been opened again: holds the homes against the book and goes on from there. */
bool play_opened(struct play *play);

#endif
