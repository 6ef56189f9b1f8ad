#include "play.h"

#include <string.h>

void play_start(struct play *play, struct kagutin *store, size_t homes, uint64_t seed)
{
    memset(play, 0, sizeof *play);
    play->store = store;
    play->homes = homes;
    play->random = seed;
}

uint64_t play_random(struct play *play, uint64_t limit)
{
    uint64_t word = play->random += 0x9E3779B97F4A7C15u;

    word = (word ^ word >> 30) * 0xBF58476D1CE4E5B9u;
    word = (word ^ word >> 27) * 0x94D049BB133111EBu;
    return (word ^ word >> 31) % limit;
}

static bool wrong(struct play *play, const char *what)
{
    if (!play->wrong)
        play->wrong = what;
    return false;
}

/* Done, as it must be, or the driver has failed. */
static bool done(struct play *play, uint64_t code, const char *what)
{
    if (code == KAGUTIN_DONE)
        return true;
    return code == KGT_DRIVER_FAILED ? false : wrong(play, what);
}

static void fill(uint8_t *block, uint64_t number, uint64_t home)
{
    size_t i;

    for (i = 0; i < 8; i++)
        block[i] = (uint8_t)(number >> 8 * i);
    for (i = 8; i < KAGUTIN_BLOCK_SIZE; i++)
        block[i] = (uint8_t)(number * 37 + home * 11 + i);
}

/* The transaction whose block a home holds after so many commits; 0 for none. */
static uint64_t writer_of(const struct play *play, uint64_t commits, uint64_t home)
{
    while (commits-- > play->opened)
        if (play->commits[commits - play->opened].homes >> home & 1)
            return play->commits[commits - play->opened].transaction;
    return play->blocks[home];
}

static void expected(const struct play *play, uint64_t commits, uint64_t home, uint8_t *block)
{
    uint64_t number = home == 0 ? commits : writer_of(play, commits, home);

    memset(block, 0, KAGUTIN_BLOCK_SIZE);
    if (number)
        fill(block, number, home);
}

static bool reads(struct play *play, uint64_t writer, uint64_t home, uint64_t commits)
{
    uint8_t block[KAGUTIN_BLOCK_SIZE], right[KAGUTIN_BLOCK_SIZE];

    if (!done(play, kgt_read(play->store, writer, home, block).code, "read"))
        return false;
    expected(play, commits, home, right);
    return memcmp(block, right, sizeof block) == 0 || wrong(play, "a home holds another block than the book has");
}

/* A store or commit that is done has used up at most one promised place. */
static void use_place(struct play *play, uint64_t writer)
{
    play->sure[writer] -= play->sure[writer] > 0;
}

/* The log is full: gives the transaction up. */
static bool give_up(struct play *play, uint64_t writer, uint64_t code, uint64_t holder)
{
    if (code != KAGUTIN_FULL) {
        use_place(play, writer);
        return holder == KGT_NO_HOLDER ? done(play, code, "store or commit") : wrong(play, "a holder without answer 8");
    }
    play->full++;
    if (play->sure[writer])
        return wrong(play, "a promised place is refused");
    if (holder > KGT_NO_HOLDER || (holder < KGT_NO_HOLDER && !play->open[holder]))
        return wrong(play, "the writer that holds the log has no transaction");
    play->open[writer] = false;
    return done(play, kgt_abort(play->store, writer).code, "abort");
}

/* Homes 8 to 11 are the list of rights; no list is set here. */
static uint64_t open_home(uint64_t home)
{
    return home >= 8 && home < 12 ? home - 4 : home;
}

static bool store_one(struct play *play, uint64_t writer)
{
    struct play_commit *plan = &play->writers[writer];
    uint64_t home = open_home(1 + play_random(play, play->homes - 1));
    uint8_t block[KAGUTIN_BLOCK_SIZE];
    struct kgt_reply reply;

    fill(block, plan->transaction, home);
    reply = kgt_store(play->store, writer, home, block);
    plan->homes |= (uint64_t)1 << home;
    return give_up(play, writer, reply.code, reply.holder);
}

static bool any_reserved(const struct play *play)
{
    size_t writer;

    for (writer = 0; writer < KAGUTIN_WRITERS; writer++)
        if (play->open[writer] && play->reserved[writer])
            return true;
    return false;
}

static bool commit(struct play *play, uint64_t writer)
{
    uint8_t block[KAGUTIN_BLOCK_SIZE];
    struct kgt_ticket ticket;
    struct kgt_reply reply;
    bool synced;

    if (play->committed - play->opened == PLAY_MOST_COMMITS)
        return wrong(play, "the book is too short for this work");
    fill(block, play->committed + 1, 0);
    reply = kgt_store(play->store, writer, 0, block);
    if (reply.code != KAGUTIN_DONE)
        return give_up(play, writer, reply.code, reply.holder);
    use_place(play, writer);
    play->commits[play->committed - play->opened] = play->writers[writer];
    play->started = play->committed + 1;
    synced = play_random(play, 16) == 0;
    ticket = synced ? kgt_commit_sync(play->store, writer) : kgt_commit(play->store, writer);
    if (ticket.ticket == KGT_NOT_TOLD)
        return give_up(play, writer, ticket.code, ticket.holder);
    play->committed = play->committed + 1;
    play->open[writer] = false;
    if (synced && ticket.code == KAGUTIN_DONE)
        play->confirmed = play->committed;
    return ticket.code == KAGUTIN_DONE || (synced && ticket.code == KAGUTIN_PROMISED && any_reserved(play))
        || wrong(play, "a commit with a sync");
}

/* Promises may forbid it. */
static bool sync_all(struct play *play)
{
    struct kgt_mark mark = kgt_sync(play->store);

    if (mark.code == KAGUTIN_PROMISED && any_reserved(play))
        return mark.mark == 0 || wrong(play, "a mark without a sync");
    if (!done(play, mark.code, "sync"))
        return mark.mark == 0 ? false : wrong(play, "a mark without a sync");
    play->confirmed = play->committed;
    return true;
}

/* A begin, or with places promised, for which the log may be too full. */
static bool begin(struct play *play, uint64_t writer)
{
    uint64_t places = play_random(play, 4) ? 0 : 1 + play_random(play, 12);
    struct kgt_reply reply = places ? kgt_reserve(play->store, writer, places) : kgt_begin(play->store, writer);

    if (reply.code == KAGUTIN_NO_PLACES && places) {
        play->full++;
        return true;
    }
    play->open[writer] = true;
    play->reserved[writer] = places > 0;
    play->sure[writer] = places;
    play->writers[writer].transaction = ++play->transactions;
    play->writers[writer].homes = 0;
    return done(play, reply.code, "begin or reserve");
}

static bool step(struct play *play)
{
    uint64_t writer = play_random(play, 4), what = play_random(play, 40);

    if (what == 0)
        return sync_all(play);
    if (what == 1)
        return done(play, kgt_maintain(play->store, play_random(play, 4)).code, "maintain");
    if (what == 2)
        return reads(play, 7, play_random(play, play->homes), play->committed);
    if (!play->open[writer])
        return begin(play, writer);
    if (what == 3) {
        play->open[writer] = false;
        return done(play, kgt_abort(play->store, writer).code, "abort");
    }
    return what < 16 ? commit(play, writer) : store_one(play, writer);
}

bool play_work(struct play *play, unsigned steps)
{
    while (steps-- > 0)
        if (!step(play))
            return false;
    return true;
}

bool play_opened(struct play *play)
{
    uint64_t number = 0, home;
    uint8_t block[KAGUTIN_BLOCK_SIZE];
    int i;

    if (!done(play, kgt_read(play->store, 0, 0, block).code, "read after an opening"))
        return false;
    for (i = 7; i >= 0; i--)
        number = number << 8 | block[i];
    if (number < play->confirmed)
        return wrong(play, "a confirmed commit is lost");
    if (number > play->started)
        return wrong(play, "a commit came back that was never made");
    for (home = 0; home < play->homes; home++)
        if (!reads(play, 0, home, number))
            return false;
    for (home = 0; home < play->homes; home++)
        play->blocks[home] = writer_of(play, number, home);
    play->opened = play->started = play->committed = play->confirmed = number;
    memset(play->open, 0, sizeof play->open);
    return true;
}
