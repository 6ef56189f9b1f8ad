/* The list of rights: its bytes, its ranges, and the object under it, over cuts and a full log. */
/* Clauses: [S-58, S-59, S-60, S-75, S-81] */
#include <stdio.h>
#include <stdlib.h>
#include <string.h>

#include "kagutin_memory.h"
#include "kagutin_rights.h"

enum { GROUPS = 5, HOMES = 40, SMALL = 11, PLACES = KAGUTIN_GROUP_ENTRIES * GROUPS };

static uint8_t memory[KGT_MEMORY_SIZE(GROUPS, HOMES)], scratch[KGT_FORMAT_SIZE(GROUPS, HOMES)];
static uint8_t lasting[KGT_LOG_SIZE(GROUPS) + KGT_HOMES_SIZE(HOMES)], written[sizeof lasting];
static uint8_t block[KAGUTIN_BLOCK_SIZE];
static struct kgt_memory medium;
static struct kagutin store;
static unsigned long checks;

static void check(bool right, const char *what)
{
    checks++;
    if (right)
        return;
    printf("rights_check: wrong: %s, check %lu\n", what, checks);
    exit(1);
}

static void gives(uint64_t answer, uint64_t code, const char *what)
{
    if (answer != code)
        printf("rights_check: answer %lu, not %lu\n", (unsigned long)answer, (unsigned long)code);
    check(answer == code, what);
}

static void start(size_t homes)
{
    kgt_memory_init(&medium, lasting, written, GROUPS, homes);
    gives(kgt_init(&store, memory, sizeof memory, GROUPS, homes, kgt_memory_driver(&medium)).code, KAGUTIN_DONE, "init");
    gives(kgt_format(&store, scratch, sizeof scratch).code, KAGUTIN_DONE, "format");
    gives(kgt_open(&store).code, KAGUTIN_DONE, "open");
}

static bool none_lands(void *context, size_t at)
{
    (void)context;
    (void)at;
    return false;
}

static void cut(void)
{
    kgt_memory_cut(&medium, none_lands, NULL);
    gives(kgt_open(&store).code, KAGUTIN_DONE, "open after a cut");
}

static void store_one(uint64_t writer, uint64_t home, uint64_t code, const char *what)
{
    gives(kgt_begin(&store, writer).code, KAGUTIN_DONE, "begin");
    gives(kgt_store(&store, writer, home, block).code, code, what);
    gives(kgt_commit(&store, writer).code, KAGUTIN_DONE, "commit");
}

static void read_one(uint64_t writer, uint64_t home, uint64_t code, const char *what)
{
    gives(kgt_read(&store, writer, home, block).code, code, what);
}

/* ---- the list's bytes ---- */

static void check_bytes(void)
{
    static const uint8_t first[32] = {7, 0, 2, 0, 0, 1, 255, 255, [16] = 255, 255, 1, 0};
    struct kgt_rights list, before;
    size_t i;

    memset(&list, 0xff, sizeof list);
    kgt_rights_clear(&list);
    check(!kgt_rights_is_list(&list), "zeros are no list");
    check(kgt_rights_allow_store(&list, 3, 7, 2) && kgt_rights_allow_store(&list, 3, 256, 65535)
              && kgt_rights_allow_read(&list, 3, 65535, 1),
          "ranges");
    check(memcmp(list.bytes + 32 * 3, first, sizeof first) == 0, "bytes of writer 3");
    for (i = 0; i < sizeof list.bytes; i++)
        check(i / 32 == 3 || list.bytes[i] == 0, "bytes of the others");
    check(kgt_rights_is_list(&list), "a list");
    check(kgt_rights_store_range(&list, 3, 1).first == 256 && kgt_rights_store_range(&list, 3, 1).number == 65535
              && kgt_rights_read_range(&list, 3, 0).first == 65535 && kgt_rights_read_range(&list, 3, 3).number == 0,
          "ranges read back");
    before = list;
    check(!kgt_rights_allow_store(&list, 8, 0, 1) && !kgt_rights_allow_read(&list, UINT64_MAX, 0, 1), "no such writer");
    check(!kgt_rights_allow_store(&list, 3, 65536, 1) && !kgt_rights_allow_read(&list, 3, 0, 65536), "no such home");
    check(kgt_rights_allow_store(&list, 3, 5, 0), "an empty range");
    check(memcmp(&list, &before, sizeof list) == 0, "none of them changes the list");
    check(kgt_rights_allow_store(&list, 3, 1, 1) && kgt_rights_allow_store(&list, 3, 2, 1), "four ranges");
    before = list;
    check(!kgt_rights_allow_store(&list, 3, 3, 1) && memcmp(&list, &before, sizeof list) == 0, "a fifth");
    check(kgt_rights_allow_read(&list, 3, 3, 1) && kgt_rights_allow_store(&list, 4, 3, 1), "of another kind, of another writer");
}

/* Edges of ranges, by counting. */
static void check_edges(void)
{
    static const struct kgt_range ranges[4] = {{0, 1}, {20, 3}, {22, 5}, {65534, 65535}};
    struct kgt_rights list;
    uint64_t home;
    size_t i;

    kgt_rights_clear(&list);
    for (home = 0; home < 30; home++)
        check(kgt_rights_may_read(&list, 5, home) && kgt_rights_may_store(&list, 5, home) == (home < 8 || home > 11), "no list");
    for (i = 0; i < 4; i++)
        check(kgt_rights_allow_store(&list, 5, ranges[i].first, ranges[i].number)
                  && kgt_rights_allow_read(&list, 6, ranges[i].first, ranges[i].number),
              "ranges");
    for (home = 0; home < 65535; home++) {
        bool own = home >= 8 && home < 12, in = home == 0 || (home >= 20 && home < 27) || home == 65534;

        check(kgt_rights_may_store(&list, 5, home) == (in && !own) && kgt_rights_may_read(&list, 5, home) == own, "writer 5");
        check(!kgt_rights_may_store(&list, 6, home) && kgt_rights_may_read(&list, 6, home) == (in || own), "writer 6");
        check(kgt_rights_may_store(&list, 0, home) == own && kgt_rights_may_read(&list, 0, home) == own, "writer 0");
    }
}

/* ---- the object ---- */

static void make_list(struct kgt_rights *list)
{
    kgt_rights_clear(list);
    kgt_rights_allow_store(list, 0, 0, 1);
    kgt_rights_allow_store(list, 1, 1, 2);
    kgt_rights_allow_store(list, 1, HOMES - 1, 65535);
    kgt_rights_allow_read(list, 1, 1, 1);
    kgt_rights_allow_read(list, 2, 0, 65535);
}

/* What the list lets each writer do, for every home. */
static void check_all(const struct kgt_rights *list)
{
    uint64_t writer, home;

    for (writer = 0; writer < KAGUTIN_WRITERS; writer++)
        for (home = 0; home < HOMES; home++) {
            bool may = kgt_rights_may_store(list, writer, home);

            if (home < 8 || home > 11)
                store_one(writer, home, may ? KAGUTIN_DONE : KAGUTIN_STORE_DENIED, "store");
            read_one(writer, home, kgt_rights_may_read(list, writer, home) ? KAGUTIN_DONE : KAGUTIN_READ_DENIED, "read");
        }
}

static void check_object(void)
{
    struct kgt_rights list, found;

    start(HOMES);
    gives(kgt_get_rights(&store, 5, &found).code, KAGUTIN_DONE, "get");
    check(!kgt_rights_is_list(&found), "no list at first");
    check_all(&found);
    store_one(1, 8, KAGUTIN_STORE_DENIED, "the list's homes are writer 0's");
    make_list(&list);
    check(kgt_set_rights(&store, &list).ticket != KGT_NOT_TOLD, "set");
    gives(kgt_get_rights(&store, 7, &found).code, KAGUTIN_DONE, "get");
    check(memcmp(&list, &found, sizeof list) == 0, "the list that was set");
    check_all(&list);
    gives(kgt_sync(&store).code, KAGUTIN_DONE, "sync");
    cut();
    gives(kgt_get_rights(&store, 7, &found).code, KAGUTIN_DONE, "get");
    check(memcmp(&list, &found, sizeof list) == 0, "the list after a cut");
    check_all(&list);
    kgt_rights_clear(&list);
    gives(kgt_set_rights(&store, &list).code, KAGUTIN_DONE, "set zeros");
    check_all(&list);
}

/* A list counts from its commit, not while it is stored, and not after a cut that takes it. */
static void check_moment(void)
{
    struct kgt_rights list;
    struct kgt_ticket set;
    uint64_t i;

    start(HOMES);
    gives(kgt_allow_list_stores(&store).code, KAGUTIN_DONE, "stores to the list allowed");
    make_list(&list);
    gives(kgt_begin(&store, 0).code, KAGUTIN_DONE, "begin");
    for (i = 0; i < KGT_RIGHTS_HOMES; i++)
        gives(kgt_store(&store, 0, KGT_RIGHTS_HOME + i, list.bytes + 64 * i).code, KAGUTIN_DONE, "store of the list");
    store_one(3, 20, KAGUTIN_DONE, "a list that is stored does not count");
    read_one(0, 20, KAGUTIN_DONE, "not for writer 0 either");
    gives(kgt_set_rights(&store, &list).code, KAGUTIN_NOT_IDLE, "set while writer 0 is at work");
    gives(kgt_commit(&store, 0).code, KAGUTIN_DONE, "commit of the list");
    store_one(3, 20, KAGUTIN_STORE_DENIED, "from its commit on it does");
    read_one(0, 20, KAGUTIN_READ_DENIED, "for writer 0 too");
    cut();
    store_one(3, 20, KAGUTIN_DONE, "a cut has taken it");
    set = kgt_set_rights(&store, &list);
    check(set.code == KAGUTIN_DONE && kgt_sync(&store).mark >= set.ticket, "set, sync");
    cut();
    store_one(3, 20, KAGUTIN_STORE_DENIED, "a list that is durable stays");
    gives(kgt_maintain(&store, 0).code, KAGUTIN_DONE, "maintain");
    store_one(3, 20, KAGUTIN_STORE_DENIED, "settled and trimmed, too");
    read_one(1, 20, KAGUTIN_READ_DENIED, "and for reads");
}

/* An ordinary store does not become a list, and its transaction goes on. */
static void check_guard(void)
{
    struct kgt_rights found;
    uint64_t home;

    start(HOMES);
    memset(block, 1, sizeof block);
    gives(kgt_begin(&store, 0).code, KAGUTIN_DONE, "begin");
    for (home = 8; home < 12; home++) {
        gives(kgt_store(&store, 0, home, block).code, KGT_LIST_GUARDED, "a store of writer 0 to the list");
        gives(kgt_store(&store, 1, home, block).code, KAGUTIN_STORE_DENIED, "of another writer");
    }
    gives(kgt_store(&store, 0, 7, block).code, KAGUTIN_DONE, "to the home before");
    gives(kgt_store(&store, 0, 12, block).code, KAGUTIN_DONE, "to the home behind");
    gives(kgt_commit(&store, 0).code, KAGUTIN_DONE, "commit");
    gives(kgt_get_rights(&store, 0, &found).code, KAGUTIN_DONE, "get");
    check(!kgt_rights_is_list(&found), "no list");
    gives(kgt_allow_list_stores(&store).code, KAGUTIN_DONE, "stores to the list allowed");
    store_one(0, 8, KAGUTIN_DONE, "a store to the list");
    store_one(0, 7, KAGUTIN_STORE_DENIED, "locks all out");
    start(HOMES);
    store_one(0, 8, KGT_LIST_GUARDED, "init forgets the setting");
    store.condition = KGT_IS_UNUSABLE;
    gives(kgt_allow_list_stores(&store).code, KGT_NOT_INIT, "the setting before init");
}

static void check_room(void)
{
    struct kgt_rights list;
    uint64_t i;

    start(HOMES);
    make_list(&list);
    for (i = 0; i < PLACES - 1; i++)
        store_one(4, 16 + i % 8, KAGUTIN_DONE, "store");
    gives(kgt_set_rights(&store, &list).code, KAGUTIN_DONE, "set makes room in a full log");
    store_one(4, 20, KAGUTIN_STORE_DENIED, "and counts");
    start(HOMES);
    gives(kgt_reserve(&store, 4, PLACES - 3).code, KAGUTIN_DONE, "reserve");
    gives(kgt_set_rights(&store, &list).code, KAGUTIN_FULL, "no room for four entries");
    gives(kgt_begin(&store, 0).code, KAGUTIN_DONE, "writer 0 is idle then");
    start(SMALL);
    gives(kgt_set_rights(&store, &list).code, KAGUTIN_BAD_HOME, "too few homes for a list");
    gives(kgt_get_rights(&store, 0, &list).code, KAGUTIN_BAD_HOME, "none to get");
    store_one(0, 10, KAGUTIN_DONE, "homes from 8 on are writer 0's");
    store_one(1, 10, KAGUTIN_STORE_DENIED, "not the others'");
    read_one(1, 10, KAGUTIN_DONE, "all read them");
    store_one(1, 7, KAGUTIN_DONE, "no list: other homes are open");
}

int main(void)
{
    check_bytes();
    check_edges();
    check_object();
    check_moment();
    check_guard();
    check_room();
    printf("rights_check: right, %lu checks\n", checks);
    return 0;
}
