/* The store object used wrongly: calls before init or after a refused one, a format that is refused, half a lock; and who makes room. */
/* Clauses: [S-75, S-78] */
#include <stdio.h>
#include <stdlib.h>
#include <string.h>

#include "kagutin_memory.h"
#include "../common/operations.h"

enum { GROUPS = 5, HOMES = 30, PLACES = KAGUTIN_GROUP_ENTRIES * GROUPS };

static uint8_t memory[KGT_MEMORY_SIZE(GROUPS, HOMES)], before[sizeof memory], scratch[KGT_FORMAT_SIZE(GROUPS, HOMES)];
static uint8_t lasting[KGT_LOG_SIZE(GROUPS) + KGT_HOMES_SIZE(HOMES)], written[sizeof lasting];
static struct kgt_memory medium;
static struct kgt_driver inner;
static struct kagutin store;
static unsigned long checks, home_writes, header_writes;

static void check(bool right, const char *what)
{
    checks++;
    if (right)
        return;
    printf("misuse_check: wrong: %s, check %lu\n", what, checks);
    exit(1);
}

static int count_lock(void *context)
{
    ++*(unsigned *)context;
    return 0;
}

static void count_unlock(void *context)
{
    --*(unsigned *)context;
}

static int counting_write(void *context, enum kgt_area area, size_t at, const uint8_t *bytes, size_t size)
{
    home_writes += area == KGT_HOMES;
    header_writes += area == KGT_LOG && at == 0;
    return inner.write(context, area, at, bytes, size);
}

static struct kgt_driver counting(void)
{
    struct kgt_driver driver;

    kgt_memory_init(&medium, lasting, written, GROUPS, HOMES);
    inner = kgt_memory_driver(&medium);
    driver = inner;
    driver.write = counting_write;
    return driver;
}

static void start(void)
{
    check(kgt_init(&store, memory, sizeof memory, GROUPS, HOMES, counting()).code == KAGUTIN_DONE, "init");
    check(kgt_format(&store, scratch, sizeof scratch).code == 0 && kgt_open(&store).code == 0, "format, open");
}

static void all_refused(uint64_t code, const char *what)
{
    struct outcome outcome;
    int operation;

    for (operation = 0; operation < OPERATIONS; operation++) {
        outcome = operate(&store, (enum operation)operation);
        check(outcome.code == code && !misleads(&outcome), what);
    }
    check(kgt_format(&store, scratch, sizeof scratch).code == code, what);
}

/* No call runs into a null pointer, and no lock is lost. */
static void check_init(void)
{
    struct kgt_driver driver = counting();
    unsigned depth = 0;

    memset(&store, 0, sizeof store);
    all_refused(KGT_NOT_INIT, "a call before init");
    check(kgt_set_lock(&store, count_lock, count_unlock, &depth).code == KGT_NOT_INIT, "a lock before init");
    check(kgt_set_room(&store, KGT_ROOM_BY_MAINTAIN).code == KGT_NOT_INIT, "a room setting before init");
    check(kgt_init(&store, memory, sizeof memory - 1, GROUPS, HOMES, driver).code == KAGUTIN_BAD_LENGTH, "a refused init");
    all_refused(KGT_NOT_INIT, "a call after a refused init");
    driver.fence = NULL;
    check(kgt_init(&store, memory, sizeof memory, GROUPS, HOMES, driver).code == KAGUTIN_BAD_LENGTH, "a driver without a fence");
    check(kgt_init(&store, NULL, sizeof memory, GROUPS, HOMES, inner).code == KAGUTIN_BAD_LENGTH, "no memory");
    all_refused(KGT_NOT_INIT, "a call after these");
    check(kgt_init(&store, memory, sizeof memory, GROUPS, HOMES, counting()).code == KAGUTIN_DONE, "init");
    check(kgt_set_lock(&store, count_lock, NULL, &depth).code == KAGUTIN_BAD_LENGTH, "half a lock");
    check(kgt_set_lock(&store, count_lock, count_unlock, &depth).code == KAGUTIN_DONE, "a whole one");
    check(kgt_begin(&store, 0).code == KGT_CLOSED && depth == 0, "a store that is not open");
}

/* A format that is refused leaves an open store open and as it was. */
static void check_format(void)
{
    start();
    check(kgt_begin(&store, 0).code == KAGUTIN_DONE, "begin");
    memcpy(before, memory, sizeof memory);
    check(kgt_format(&store, scratch, sizeof scratch - 1).code == KAGUTIN_SHORT_BATCH, "a short scratch");
    check(memcmp(before, memory, sizeof memory) == 0, "nothing has changed");
    check(kgt_abort(&store, 0).code == KAGUTIN_DONE, "the store is still open");
    check(kgt_format(&store, scratch, sizeof scratch).code == KAGUTIN_DONE, "format");
    check(kgt_begin(&store, 0).code == KGT_CLOSED, "then it is closed");
}

static void commit(uint64_t writer, uint64_t home)
{
    uint8_t block[KAGUTIN_BLOCK_SIZE] = {1};

    check(kgt_begin(&store, writer).code == 0 && kgt_store(&store, writer, home, block).code == 0, "begin, store");
    check(kgt_commit(&store, writer).code == KAGUTIN_DONE, "commit");
}

/* A maintain without a bound tells the truth about what is left: what its own fence has covered since. */
static void check_more(void)
{
    uint64_t home;

    start();
    for (home = 12; home < 12 + 7; home++)
        commit(0, home);
    check(kgt_sync(&store).code == KAGUTIN_DONE, "sync");
    for (home = 20; home < 20 + 7; home++)
        commit(0, home);
    check(kgt_maintain(&store, 0).more, "four homes and more are left, and it says so");
    home_writes = 0;
    check(!kgt_maintain(&store, 0).more && home_writes == 7, "then none is");
    home_writes = 0;
    check(!kgt_maintain(&store, 4).more && home_writes == 0, "and that is so");
}

/* A full log with a round under way: the round's homes are not written a second time. */
static void check_once(void)
{
    uint64_t i;

    start();
    for (i = 0; i < PLACES - KAGUTIN_GROUP_ENTRIES; i++)
        commit(0, 12 + i % 16);
    check(kgt_sync(&store).code == KAGUTIN_DONE && kgt_maintain(&store, 1).more, "a round of 16 homes");
    for (i = 0; i < KAGUTIN_GROUP_ENTRIES; i++)
        commit(0, 29);
    home_writes = header_writes = 0;
    commit(0, 29);
    check(home_writes == 15 && header_writes == 1, "the commit finishes the round and trims, and settles no more");
}

/* Writers never settle: a full log answers 8, 17 and 18 at once, and the task that maintains makes room. */
static void check_room(void)
{
    uint8_t block[KAGUTIN_BLOCK_SIZE] = {1};
    struct kgt_rights list;
    struct kgt_ticket ticket;
    uint64_t i;

    kgt_rights_clear(&list);
    start();
    check(kgt_set_room(&store, KGT_ROOM_BY_MAINTAIN).code == KAGUTIN_DONE, "the setting");
    for (i = 0; i < PLACES; i++)
        commit(0, 12 + i % 8);
    home_writes = header_writes = 0;
    check(kgt_begin(&store, 1).code == 0 && kgt_store(&store, 1, 1, block).code == 0, "begin, store");
    check(kgt_store(&store, 1, 2, block).code == KAGUTIN_FULL, "a store");
    ticket = kgt_commit(&store, 1);
    check(ticket.code == KAGUTIN_FULL && ticket.holder == KGT_NO_HOLDER && ticket.ticket == KGT_NOT_TOLD, "a commit");
    check(kgt_commit_sync(&store, 1).code == KAGUTIN_FULL, "a commit with sync");
    check(kgt_reserve(&store, 2, 1).code == KAGUTIN_NO_PLACES, "a reserve");
    check(kgt_pump_start(&store, 2, 0, 1).code == KAGUTIN_FULL, "an event");
    check(kgt_set_rights(&store, &list).code == KAGUTIN_FULL, "a list");
    check(home_writes == 0 && header_writes == 0, "none of them settles or trims");
    check(kgt_sync(&store).code == KAGUTIN_DONE, "the task that maintains syncs");
    while (kgt_maintain(&store, 4).more)
        ;
    check(kgt_commit_sync(&store, 1).code == KAGUTIN_DONE, "and the commit goes on");
}

/* Header, numbers and object agree. */
static void check_version(void)
{
    char text[32];

    snprintf(text, sizeof text, "%d.%d.%d", KAGUTIN_VERSION_MAJOR, KAGUTIN_VERSION_MINOR, KAGUTIN_VERSION_PATCH);
    check(strcmp(text, KAGUTIN_VERSION) == 0 && strcmp(text, kagutin_version()) == 0, "the version");
    check(KAGUTIN_VERSION_NUMBER == 10000 * KAGUTIN_VERSION_MAJOR + 100 * KAGUTIN_VERSION_MINOR + KAGUTIN_VERSION_PATCH,
          "its number");
}

int main(void)
{
    check_version();
    check_init();
    check_format();
    check_more();
    check_once();
    check_room();
    printf("misuse_check: right, %lu checks\n", checks);
    return 0;
}
