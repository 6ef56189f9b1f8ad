/*
 * The workload that every store of the comparison runs: transactions of
 * 64-byte blocks to random homes, the same for all stores. A store brings the
 * functions below; measure_stores times them, counts bytes, and at the end
 * opens the store again and compares every home with a plain array.
 */
#ifndef WORKLOAD_H
#define WORKLOAD_H

#include <stddef.h>
#include <stdint.h>

enum {
    HOMES = 4096,
    BLOCK_SIZE = 64,
    TOGETHER = 8 /* commits that become durable together */
};

struct write {
    unsigned home;
    const uint8_t *block;
};

struct store {
    const char *name;
    size_t commits; /* in one run; a quarter of it with large transactions */

    /* Makes a store in an empty folder, or opens the one that is there. */
    void (*create)(const char *folder);
    void (*open)(const char *folder);
    void (*close)(void);

    /* One transaction, durable on return. */
    void (*commit)(const struct write *writes, size_t count);

    /*
     * TOGETHER transactions of count writes each, one after the other in
     * writes, all durable on return. Null: they are made one transaction.
     */
    void (*commit_together)(const struct write *writes, size_t count);

    void (*read)(unsigned home, uint8_t *block);

    /* Bytes written to the medium so far. Null: they cannot be counted. */
    uint64_t (*bytes)(void);

    /* Empties the log; from here on it keeps every commit. Null: there is none to keep. */
    void (*keep_log)(void);

    /* Makes the writes in a transaction, calls cut before any of it is committed, and undoes it. */
    void (*cut_short)(const struct write *writes, size_t count, void (*cut)(void));
};

/*
 * Measures stores by the program's arguments, FOLDER WHAT BLOCKS ROUND RUNS:
 * where to put them, what is timed, blocks per transaction, a number that
 * chooses the homes, timed runs. WHAT is
 *
 *   1, 8      commits, of which so many become durable together
 *   reads     reads of random homes, after some commits
 *   recovery  opening the store after a power cut, and the first read
 *   counted   reads again, for callgrind, which is to count inside read_home
 *             and to dump after counted_reads
 *
 * Prints a line for each run, fields parted by tabs: round, store, what, blocks,
 * ns per commit (read, opening) of processor time, ns by the clock; then, the
 * same for all runs, ns by the clock that one call in a thousand exceeds, bytes
 * per commit (opening). Of counted reads: the store, and how many there were.
 */
int measure_stores(int argc, char **argv, const struct store *stores, size_t count);

/* Bytes that this process has passed to write calls. */
uint64_t bytes_by_write_calls(void);

/* Ends the program with a message. */
void fail(const char *format, ...);

#endif
