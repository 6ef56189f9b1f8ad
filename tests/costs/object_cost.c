/*
 * What the object's calls cost: object_cost CASE makes the case at G 16 and D 32 on a driver that does nothing, and then the one call inside
 * counted(), whose instructions callgrind counts (tests/costs/object-cost.sh). Without words it lists the cases: name, call, most instructions.
 */
#include <stdbool.h>
#include <stdio.h>
#include <stdlib.h>
#include <string.h>

#include "kagutin_store.h"

enum { GROUPS = 16, HOMES = 32 };
enum call { BEGIN, STORE, COMMIT, READ, SYNC, MAINTAIN };

/* The most is 1.15 of what it was when the object had a runner written by hand, 1.3 for a sync on words; for eight groups that wait, what it is now. */
struct shape {
    const char *name;
    enum call call;
    enum kgt_landing landing;
    unsigned stores;  /* before the call, in the transaction that is open */
    unsigned commits; /* before that, of seven blocks each: so many groups wait */
    unsigned most;    /* instructions */
};

static const char *const names[] = {"begin", "store", "commit", "read", "sync", "maintain"};

static const struct shape shapes[] = {
    {"begin", BEGIN, KGT_LANDS_BLOCKS, 0, 0, 228},
    {"store-held", STORE, KGT_LANDS_BLOCKS, 0, 0, 355},
    {"store", STORE, KGT_LANDS_BLOCKS, 3, 0, 568},
    {"store-group", STORE, KGT_LANDS_BLOCKS, 7, 0, 794},
    {"store-group-words", STORE, KGT_LANDS_WORDS, 7, 0, 809},
    {"commit", COMMIT, KGT_LANDS_BLOCKS, 3, 0, 829},
    {"commit-group", COMMIT, KGT_LANDS_BLOCKS, 7, 0, 1213},
    {"read", READ, KGT_LANDS_BLOCKS, 0, 1, 448},
    {"sync-none", SYNC, KGT_LANDS_BLOCKS, 0, 0, 580},
    {"sync", SYNC, KGT_LANDS_BLOCKS, 4, 0, 799},
    {"sync-words", SYNC, KGT_LANDS_WORDS, 4, 0, 971},
    {"sync-words-8", SYNC, KGT_LANDS_WORDS, 4, 7, 1800},
    {"maintain", MAINTAIN, KGT_LANDS_WORDS, 0, 3, 7299},
};

static uint8_t memory[KGT_MEMORY_SIZE(GROUPS, HOMES)], scratch[KGT_FORMAT_SIZE(GROUPS, HOMES)], block[KAGUTIN_BLOCK_SIZE];
static uint8_t lasting[2][KGT_LOG_SIZE(GROUPS) + KGT_HOMES_SIZE(HOMES)];
static struct kagutin store;
static bool counting;

static void done(uint64_t code)
{
    if (code == KAGUTIN_DONE)
        return;
    printf("object_cost: answer %lu\n", (unsigned long)code);
    exit(1);
}

static int load(void *context, enum kgt_area area, size_t at, uint8_t *bytes, size_t size)
{
    (void)context;
    memcpy(bytes, lasting[area] + at, size);
    return 0;
}

/* Nothing while it counts: what is counted is the object. */
static int write_area(void *context, enum kgt_area area, size_t at, const uint8_t *bytes, size_t size)
{
    (void)context;
    if (!counting)
        memcpy(lasting[area] + at, bytes, size);
    return 0;
}

static int fence(void *context)
{
    (void)context;
    return 0;
}

void counted(enum call call);

void counted(enum call call)
{
    switch (call) {
    case BEGIN: done(kgt_begin(&store, 1).code); break;
    case STORE: done(kgt_store(&store, 0, 20, block).code); break;
    case COMMIT: done(kgt_commit(&store, 0).code); break;
    case READ: done(kgt_read(&store, 1, 14, block).code); break;
    case SYNC: done(kgt_sync(&store).code); break;
    case MAINTAIN: done(kgt_maintain(&store, 0).code); break;
    }
}

static void stores(unsigned count)
{
    uint64_t home;

    done(kgt_begin(&store, 0).code);
    for (home = 0; home < count; home++)
        done(kgt_store(&store, 0, 12 + home, block).code);
}

static void run(const struct shape *shape)
{
    const struct kgt_driver driver = {NULL, load, write_area, fence, shape->landing};
    unsigned i;

    done(kgt_init(&store, memory, sizeof memory, GROUPS, HOMES, driver).code);
    done(kgt_format(&store, scratch, sizeof scratch).code);
    done(kgt_open(&store).code);
    for (i = 0; i < shape->commits; i++) {
        stores(7);
        done(kgt_commit(&store, 0).code);
    }
    if (shape->call == MAINTAIN)
        done(kgt_sync(&store).code);
    if (shape->stores || shape->call == STORE)
        stores(shape->stores);
    if (shape->call == SYNC && shape->stores)
        done(kgt_commit(&store, 0).code);
    counting = true;
    counted(shape->call);
}

int main(int argc, char **argv)
{
    size_t i;

    for (i = 0; i < sizeof shapes / sizeof shapes[0]; i++)
        if (argc < 2)
            printf("%s %s %u\n", shapes[i].name, names[shapes[i].call], shapes[i].most);
        else if (strcmp(argv[1], shapes[i].name) == 0)
            run(&shapes[i]);
    return 0;
}
