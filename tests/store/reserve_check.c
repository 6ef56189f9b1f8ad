/*
 * Places promised beforehand, on the store object: what others leave alone, what
 * is refused, what making room does about it, and that an opening forgets them.
 */
/* Clauses: [S-43, S-44] */
#include <stdio.h>
#include <stdlib.h>

#include "kagutin_memory.h"

enum { GROUPS = 5, HOMES = 8, PLACES = KAGUTIN_GROUP_ENTRIES * GROUPS, RADIO = 4 };

static uint8_t memory[KGT_MEMORY_SIZE(GROUPS, HOMES)], scratch[KGT_FORMAT_SIZE(GROUPS, HOMES)];
static uint8_t lasting[KGT_LOG_SIZE(GROUPS) + KGT_HOMES_SIZE(HOMES)], written[sizeof lasting];
static const uint8_t block[KAGUTIN_BLOCK_SIZE] = {1};
static struct kgt_memory medium;
static struct kagutin store;
static unsigned long checks;

static void check(bool right, const char *what)
{
    checks++;
    if (right)
        return;
    printf("reserve_check: wrong: %s, at check %lu\n", what, checks);
    exit(1);
}

/* Refused or done; the holder is told with 8 and 17 alone. */
static void check_reply(struct kgt_reply reply, uint64_t code, uint64_t holder, const char *what)
{
    check(reply.code == code && reply.holder == holder && reply.error == 0, what);
}

static void check_done(struct kgt_reply reply, const char *what)
{
    check_reply(reply, KAGUTIN_DONE, KGT_NO_HOLDER, what);
}

static void check_full(struct kgt_ticket ticket, uint64_t holder, const char *what)
{
    check(ticket.code == KAGUTIN_FULL && ticket.holder == holder && ticket.ticket == KGT_NOT_TOLD, what);
}

static void check_places(uint64_t live, uint64_t dead, uint64_t promised, uint64_t holder)
{
    struct kagutin_places places;

    check_done(kgt_usage(&store, &places), "usage");
    check(places.live == live && places.dead == dead && places.free == PLACES - live - dead, "live, dead and free places");
    check(places.promised == promised && places.holder == holder, "promised places, and who holds the log");
}

static void start(void)
{
    kgt_memory_init(&medium, lasting, written, GROUPS, HOMES);
    check(kgt_init(&store, memory, sizeof memory, GROUPS, HOMES, kgt_memory_driver(&medium)).code == KAGUTIN_DONE, "init");
    check(kgt_format(&store, scratch, sizeof scratch).code == KAGUTIN_DONE, "format");
    check(kgt_open(&store).code == KAGUTIN_DONE, "open");
}

/* A transaction of one entry; the commit's answer. */
static struct kgt_ticket commit_one(uint64_t writer)
{
    check_done(kgt_begin(&store, writer), "begin");
    check_done(kgt_store(&store, writer, writer, block), "store");
    return kgt_commit(&store, writer);
}

static void commit_many(uint64_t writer, uint64_t count)
{
    while (count-- > 0)
        check(commit_one(writer).code == KAGUTIN_DONE, "commit");
}

/* The radio task has ten places and uses one, in the first group; writer 0 gets all the others. */
static void check_kept(void)
{
    uint64_t i;

    start();
    check_done(kgt_reserve(&store, RADIO, 10), "reserve");
    check_places(0, 0, 10, 8);
    for (i = 0; i < 2; i++)
        check_done(kgt_store(&store, RADIO, i, block), "store");
    check_places(1, 0, 9, RADIO);
    commit_many(0, PLACES - 10);
    check_full(commit_one(0), RADIO, "only promised places are left");
    check_places(PLACES - 9, 0, 9, RADIO);
    check(kgt_sync(&store).code == KAGUTIN_PROMISED && kgt_sync(&store).mark == 0, "a sync would pass promised places over");
    check_reply(kgt_reserve(&store, 1, 1), KAGUTIN_NO_PLACES, RADIO, "none left to promise");
    for (i = 2; i < 10; i++)
        check_done(kgt_store(&store, RADIO, i % HOMES, block), "a promised store");
    check(kgt_commit(&store, RADIO).code == KAGUTIN_DONE, "a promised commit");
    check_places(PLACES, 0, 0, 8);
    check(kgt_commit(&store, 0).code == KAGUTIN_DONE, "now the other makes room by itself");
    check(kgt_sync(&store).code == KAGUTIN_DONE, "sync");
}

/* A full log: reserve makes room, up to all places; what is asked too much is refused. */
static void check_room(void)
{
    start();
    commit_many(0, PLACES);
    check_places(PLACES, 0, 0, 8);
    check_reply(kgt_reserve(&store, RADIO, 0), KAGUTIN_NO_PLACES, 8, "no places");
    check_reply(kgt_reserve(&store, RADIO, PLACES + 1), KAGUTIN_NO_PLACES, 8, "more than the log has");
    check_places(PLACES, 0, 0, 8);
    check_reply(kgt_reserve(&store, 8, 1), KAGUTIN_BAD_WRITER, KGT_NO_HOLDER, "no such writer");
    check_done(kgt_reserve(&store, RADIO, PLACES), "all places");
    check_places(0, 0, PLACES, 8);
    check_reply(kgt_reserve(&store, RADIO, 1), KAGUTIN_NOT_IDLE, KGT_NO_HOLDER, "a second time");
    check_full(commit_one(0), KGT_NO_HOLDER, "a commit of another, which nobody holds back but the promise");
    check_done(kgt_abort(&store, RADIO), "abort");
    check_places(0, 0, 0, 8);
    check(kgt_commit(&store, 0).code == KAGUTIN_DONE, "abort gives the places back");
}

/* Promises forbid a flush, but a commit still makes room: the groups that are full are settled and trimmed. */
static void check_room_beside(void)
{
    start();
    check_done(kgt_reserve(&store, RADIO, 10), "reserve");
    commit_many(0, PLACES - 10);
    check_places(PLACES - 10, 0, 10, 8);
    check(commit_one(0).code == KAGUTIN_DONE, "room beside the promise");
    check_places((PLACES - 10) % KAGUTIN_GROUP_ENTRIES + 1, 0, 10, 8);
    check(kgt_sync(&store).code == KAGUTIN_DONE, "and a sync then has room");
    commit_many(0, 100);
    check(kgt_sync(&store).code == KAGUTIN_DONE, "or makes it");
    check(kgt_commit(&store, RADIO).ticket == 0, "a commit of nothing");
    check(kgt_sync(&store).code == KAGUTIN_DONE && kgt_maintain(&store, 0).code == KAGUTIN_DONE, "sync, maintain");
    check_places(0, 0, 0, 8);
}

static void check_forgotten(void)
{
    start();
    check_done(kgt_reserve(&store, RADIO, 20), "reserve");
    check_done(kgt_reserve(&store, 1, 15), "reserve");
    kgt_memory_cut(&medium, NULL, NULL);
    check(kgt_open(&store).code == KAGUTIN_DONE, "open");
    check_places(0, 0, 0, 8);
    check_done(kgt_reserve(&store, 2, PLACES), "an opening forgets all promises");
}

int main(void)
{
    check_kept();
    check_room();
    check_room_beside();
    check_forgotten();
    printf("reserve_check: right, %lu checks\n", checks);
    return 0;
}
