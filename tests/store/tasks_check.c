/*
 * Eight threads on one store, one writer each, under the lock hooks; a ninth
 * syncs, maintains and counts the places. Each writes a pair of homes in one
 * transaction, again and again; one reserves its places and then never meets a
 * full log; writer 0 changes the list of rights, and a tenth thread never sees
 * two lists mixed. Then power is cut, and every pair must be whole.
 */
/* Clauses: [S-73] */
#define _POSIX_C_SOURCE 200809L

#include <pthread.h>
#include <stdio.h>
#include <string.h>

#include "kagutin_memory.h"
#include "kagutin_rights.h"

enum { GROUPS = 12, OTHERS = 16, HOMES = OTHERS + KAGUTIN_WRITERS, ROUNDS = 400, RADIO = 4 };
enum { HOUSEKEEPING = KAGUTIN_WRITERS, READER, THREADS };

static uint8_t memory[KGT_MEMORY_SIZE(GROUPS, HOMES)], scratch[KGT_FORMAT_SIZE(GROUPS, HOMES)];
static uint8_t lasting[KGT_LOG_SIZE(GROUPS) + KGT_HOMES_SIZE(HOMES)], written[sizeof lasting];
static struct kgt_memory medium;
static struct kagutin store;
static pthread_mutex_t mutex = PTHREAD_MUTEX_INITIALIZER;
static unsigned long commits[KAGUTIN_WRITERS], full[KAGUTIN_WRITERS], failures[THREADS];
static struct kgt_rights lists[3]; /* none, and two that give everything to all in different bytes */

static int take(void *context)
{
    return pthread_mutex_lock((pthread_mutex_t *)context);
}

static void give(void *context)
{
    pthread_mutex_unlock((pthread_mutex_t *)context);
}

static void make_lists(void)
{
    uint64_t writer;
    int i;

    for (i = 0; i < 3; i++)
        kgt_rights_clear(&lists[i]);
    for (writer = 0; writer < KAGUTIN_WRITERS; writer++) {
        kgt_rights_allow_store(&lists[1], writer, 0, 65535);
        kgt_rights_allow_read(&lists[1], writer, 0, 65535);
        for (i = 0; i < 4; i++) {
            kgt_rights_allow_store(&lists[2], writer, 8 * (uint64_t)i, 8);
            kgt_rights_allow_read(&lists[2], writer, 8 * (uint64_t)i, 8);
        }
    }
}

/* The list is one of the three, whole. */
static void *reader(void *argument)
{
    struct kgt_rights found;
    unsigned round;
    int i;

    (void)argument;
    for (round = 0; round < 4 * ROUNDS; round++) {
        failures[READER] += kgt_get_rights(&store, round % KAGUTIN_WRITERS, &found).code != KAGUTIN_DONE;
        for (i = 0; i < 3 && memcmp(&found, &lists[i], sizeof found) != 0; i++)
            ;
        failures[READER] += i == 3;
    }
    return NULL;
}

/* One transaction: the next number into both homes of the writer. */
static void *task(void *argument)
{
    uint64_t writer = (uint64_t)(size_t)argument;
    unsigned round;

    for (round = 0; round < ROUNDS; round++) {
        uint8_t block[KAGUTIN_BLOCK_SIZE], own[KAGUTIN_BLOCK_SIZE];
        struct kgt_reply reply;
        uint64_t code;

        if (writer == 0 && round % 4 == 0) {
            code = kgt_set_rights(&store, &lists[1 + round / 4 % 2]).code;
            failures[0] += code != KAGUTIN_DONE && code != KAGUTIN_FULL;
        }
        memset(block, (int)((commits[writer] + 1) % 251), sizeof block);
        reply = writer == RADIO ? kgt_reserve(&store, writer, 2) : kgt_begin(&store, writer);
        if (reply.code == KAGUTIN_NO_PLACES) {
            full[writer]++;
            continue;
        }
        failures[writer] += reply.code != KAGUTIN_DONE;
        reply = kgt_store(&store, writer, writer, block);
        if (reply.code == KAGUTIN_DONE)
            reply = kgt_store(&store, writer, OTHERS + writer, block);
        if (reply.code == KAGUTIN_DONE) {
            failures[writer] += kgt_read(&store, writer, writer, own).code != KAGUTIN_DONE || memcmp(own, block, sizeof own) != 0;
        }
        code = reply.code == KAGUTIN_DONE ? kgt_commit(&store, writer).code : reply.code;
        if (code == KAGUTIN_DONE) {
            commits[writer]++;
            continue;
        }
        full[writer]++;
        failures[writer] += writer == RADIO || code != KAGUTIN_FULL || kgt_abort(&store, writer).code != KAGUTIN_DONE;
    }
    return NULL;
}

static void *housekeeping(void *argument)
{
    struct kagutin_places places;
    unsigned round;

    (void)argument;
    for (round = 0; round < ROUNDS; round++) {
        uint64_t code = kgt_sync(&store).code;

        failures[HOUSEKEEPING] += (code != KAGUTIN_DONE && code != KAGUTIN_PROMISED)
            || kgt_maintain(&store, 4).code != KAGUTIN_DONE || kgt_usage(&store, &places).code != KAGUTIN_DONE
            || places.live + places.dead + places.free != KAGUTIN_GROUP_ENTRIES * GROUPS;
    }
    return NULL;
}

static bool lands_never(void *context, size_t at)
{
    (void)context;
    (void)at;
    return false;
}

int main(void)
{
    pthread_t threads[THREADS];
    unsigned long wrong = 0, done = 0, tries = 0;
    uint8_t block[KAGUTIN_BLOCK_SIZE];
    size_t i;

    kgt_memory_init(&medium, lasting, written, GROUPS, HOMES);
    wrong += kgt_init(&store, memory, sizeof memory, GROUPS, HOMES, kgt_memory_driver(&medium)).code;
    wrong += kgt_set_lock(&store, take, give, &mutex).code;
    wrong += kgt_format(&store, scratch, sizeof scratch).code + kgt_open(&store).code;
    make_lists();
    for (i = 0; i < THREADS; i++)
        wrong += pthread_create(&threads[i], NULL,
                                i == READER             ? reader
                                    : i == HOUSEKEEPING ? housekeeping
                                                        : task,
                                (void *)i)
            != 0;
    for (i = 0; i < THREADS; i++)
        pthread_join(threads[i], NULL);
    wrong += kgt_sync(&store).code;
    kgt_memory_cut(&medium, lands_never, NULL);
    wrong += kgt_open(&store).code;
    for (i = 0; i < 2 * KAGUTIN_WRITERS; i++) {
        size_t writer = i % KAGUTIN_WRITERS, home = i < KAGUTIN_WRITERS ? writer : OTHERS + writer;

        wrong += kgt_read(&store, writer, home, block).code || block[0] != commits[writer] % 251 || block[63] != block[0];
        done += i < KAGUTIN_WRITERS ? commits[writer] : 0;
        tries += i < KAGUTIN_WRITERS ? full[writer] : 0;
    }
    for (i = 0; i < THREADS; i++)
        wrong += failures[i];
    printf("tasks_check: %s, %lu commits of eight threads, %lu given up in a full log\n", wrong ? "wrong" : "right", done, tries);
    return wrong != 0;
}
