/* Logs that a store writes, full but for a few places; what damage.c makes of them. */
#include <string.h>

#include "logs.h"
#include "store/kagutin_state_layout.h"

enum { STATE_FILLED = 32, WORD = 64 /* homes */, SMALL_HOMES = 4096 };

const struct worst_log worst_logs[] = {
    {"commits of 1", NULL, COMMITS, 1, 1, SPREAD, 0, FENCED},
    {"commits of 1, wrapped", NULL, COMMITS, 1, 1, SPREAD, 0, FENCED | WRAPPED},
    {"commits of 1, one word", NULL, COMMITS, 1, 1, ONE_WORD, 0, FENCED | WRAPPED},
    {"commits of 1, words apart", NULL, COMMITS, 1, 1, APART, 0, FENCED | WRAPPED},
    {"eight commit 4", NULL, COMMITS, 8, 4, SPREAD, 0, FENCED | WRAPPED},
    {"eight commit 4, one word", NULL, COMMITS, 8, 4, ONE_WORD, 0, FENCED | WRAPPED},
    {"eight commit 2, one word", NULL, COMMITS, 8, 2, ONE_WORD, 0, FENCED | WRAPPED},
    {"eight commit 2, reversed, one word", NULL, COMMITS, 8, 2, ONE_WORD, 0, FENCED | WRAPPED | REVERSED},
    {"eight overlap", NULL, OVERLAP, 8, 0, SPREAD, 0, FENCED | WRAPPED},
    {"eight overlap, one word", NULL, OVERLAP, 8, 0, ONE_WORD, 0, FENCED | WRAPPED},
    {"eight overlap, words apart", NULL, OVERLAP, 8, 0, APART, 0, FENCED | WRAPPED},
    {"aborted but the last", NULL, DROPPED, 1, 0, APART, 0, FENCED | WRAPPED},
    {"half settled, commits of 1", NULL, COMMITS, 1, 1, SPREAD, 0, FENCED | HALF | WRAPPED},
    {"half settled, eight commit 4", NULL, COMMITS, 8, 4, SPREAD, 0, FENCED | HALF | WRAPPED},
    {"settled, commits of 1", NULL, COMMITS, 1, 1, SPREAD, 0, FENCED | SETTLED | WRAPPED},
    {"settled, open since group 1", NULL, COMMITS, 1, 1, SPREAD, 0, SINCE_ONE},
    {"own entries", NULL, OWN, 1, 0, SPREAD, 1, OWNED},
    {"own entries, all open, a list", NULL, OWN, 1, 0, SPREAD, 1, ALL_OPEN},
    {"own entries, high homes, a list", NULL, OWN, 1, 0, HIGH, 1, ALL_OPEN | LIST_OWN},
    {"own entries for two homes", NULL, OWN, 1, 0, TWO, 1, ALL_OPEN},
    {"another's entries", NULL, OTHERS, 1, 0, SPREAD, 1, OWNED},
    {"another's entries, all open, a list", NULL, OTHERS, 1, 0, SPREAD, 1, ALL_OPEN},
    {"all open, a list, 8 places left", NULL, OTHERS, 1, 0, SPREAD, 8, ALL_OPEN},
    {"all open, a list, nothing promised", NULL, OTHERS, 1, 0, SPREAD, 8, ALL_OPEN & ~PROMISED},
    {"commits of 1, all open, a list", NULL, COMMITS, 1, 1, SPREAD, 8, (ALL_OPEN & ~IN_ROUND) | FENCED},
    {"a round under way, one across it", NULL, COMMITS, 1, 1, SPREAD, 0, WRAPPED | LISTED | ACROSS},
    {"a round under way, one across it, words apart", NULL, COMMITS, 1, 1, APART, 0, WRAPPED | LISTED | ACROSS},
    {"a round under way, one across it, places promised", NULL, COMMITS, 1, 1, SPREAD, 8, WRAPPED | LISTED | ACROSS | PROMISED},
    {"shared first", share_first, COMMITS, 1, 1, SPREAD, 0, FENCED},
    {"shared first, one word", share_first, COMMITS, 1, 1, ONE_WORD, 0, FENCED | WRAPPED},
    {"last astray, commits of 1", last_astray, COMMITS, 1, 1, SPREAD, 0, FENCED | WRAPPED},
    {"last astray, one word", last_astray, COMMITS, 1, 1, ONE_WORD, 0, FENCED | WRAPPED},
    {"last astray, words apart", last_astray, COMMITS, 1, 1, APART, 0, FENCED | WRAPPED},
    {"last astray, eight overlap", last_astray, OVERLAP, 8, 0, SPREAD, 0, FENCED | WRAPPED},
    {"last astray, eight overlap, one word", last_astray, OVERLAP, 8, 0, ONE_WORD, 0, FENCED | WRAPPED},
    {"last astray, eight commit 4, one word", last_astray, COMMITS, 8, 4, ONE_WORD, 0, FENCED | WRAPPED},
    {"every other astray", all_astray, COMMITS, 1, 1, ONE_WORD, 0, FENCED | WRAPPED},
    {"nested", nest, COMMITS, 1, 1, SPREAD, 0, FENCED | WRAPPED},
    {"nested, last astray", nest_astray, COMMITS, 1, 1, SPREAD, 0, FENCED | WRAPPED},
    {"open since group 1, homes past D", junk_homes, COMMITS, 1, 1, SPREAD, 0, SINCE_ONE},
    {"open since group 1, counts of 0", junk_counts, COMMITS, 1, 1, SPREAD, 0, SINCE_ONE},
    {"open since group 1, shared first", share_first, COMMITS, 1, 1, SPREAD, 0, SINCE_ONE},
    {"open since group 1, positions at the start", positions_at_start, COMMITS, 1, 1, SPREAD, 0, SINCE_ONE},
    {"half settled, homes past D", junk_homes, COMMITS, 1, 1, SPREAD, 0, FENCED | HALF | WRAPPED},
    {"half settled, high bits set", junk_bits, COMMITS, 1, 1, SPREAD, 0, FENCED | HALF | WRAPPED},
    {"half settled, counts of 0", junk_counts, COMMITS, 1, 1, SPREAD, 0, FENCED | HALF | WRAPPED},
    {"half settled, positions at the start", positions_at_start, COMMITS, 1, 1, SPREAD, 0, FENCED | HALF | WRAPPED},
    {"half settled, turns wrong", turns_wrong, COMMITS, 1, 1, SPREAD, 0, FENCED | HALF | WRAPPED},
    {"unused tags of the sought home", sought_unused, OWN, 1, 0, SPREAD, 1, ALL_OPEN},
    {"closing tags of the sought home", sought_closing, OWN, 1, 0, SPREAD, 1, ALL_OPEN},
    {"near misses of the sought homes", near_misses, OWN, 1, 0, HIGH, 1, ALL_OPEN | LIST_OWN},
    {"own entries, positions anywhere", positions_anywhere, OWN, 1, 0, HIGH, 1, ALL_OPEN | LIST_OWN},
    {"positions anywhere, all open, a list", positions_anywhere, OTHERS, 1, 0, SPREAD, 8, ALL_OPEN},
    {"strip out of order", strip_out_of_order, OTHERS, 1, 0, SPREAD, 8, ALL_OPEN & ~(IN_ROUND | PROMISED)},
    {"strip out of order in a round", strip_out_of_order, OTHERS, 1, 0, SPREAD, 8, ALL_OPEN},
    {"tags anyhow", tags_anyhow, COMMITS, 8, 4, ONE_WORD, 0, FENCED | WRAPPED},
    {"tags anyhow, all open", tags_anyhow, OWN, 1, 0, SPREAD, 1, ALL_OPEN},
};
const size_t worst_log_count = sizeof worst_logs / sizeof *worst_logs;

struct worst worst;
static struct {
    uint8_t log[sizeof worst.log], state[sizeof worst.state], newest[sizeof worst.newest];
} kept;
void (*worst_units)(bool again);
static const struct worst_log *plan;
static uint64_t stored;
static bool failed, halved;

uint64_t worst_number(size_t at)
{
    uint64_t number = 0;
    int i;

    for (i = 7; i >= 0; i--)
        number = number << 8 | worst.state[at + (size_t)i];
    return number;
}

uint64_t worst_untouched(void)
{
    return worst.homes - CHAIN;
}

static void done(struct kagutin_reply reply)
{
    failed |= reply.code != KAGUTIN_DONE;
}

static uint64_t places_free(void)
{
    return PLACES * (worst_number(STATE_START) + worst.groups - worst_number(STATE_NEXT)) - worst_number(STATE_FILLED);
}

static uint64_t next_home(void)
{
    uint64_t first = plan->flags & UNITS ? BEHIND_UNITS : FREE, span = worst.homes - first - CHAIN, words = span / WORD,
             i = stored++;

    if (plan->homes == ONE_WORD && words >= 2)
        return WORD + i % WORD;
    if (plan->homes == APART && words >= 2)
        return first + i % words * WORD + i / words % WORD;
    if (plan->homes == HIGH && span > 2 * SMALL_HOMES)
        return SMALL_HOMES + i % (span - SMALL_HOMES);
    if (plan->homes == TWO)
        return first + i % 2;
    return first + i * 29 % span;
}

static void begin(uint64_t writer)
{
    done(kagutin_begin(LENT_AREAS, LENT_STATE, writer));
}

static void store(uint64_t writer, uint64_t home)
{
    done(kagutin_store(LENT_AREAS, LENT_STATE, LENT_BLOCK, LENT_BATCH, writer, home));
}

static void commit(uint64_t writer)
{
    done(kagutin_commit(LENT_AREAS, LENT_STATE, LENT_NEWEST, LENT_BATCH, writer));
}

static void fence(void)
{
    done(kagutin_flush(LENT_AREAS, LENT_STATE, LENT_BATCH));
    done(kagutin_confirm(LENT_AREAS, LENT_STATE));
}

static void settle(void)
{
    fence();
    done(kagutin_settle(LENT_AREAS, LENT_STATE, LENT_BATCH));
    done(kagutin_confirm(LENT_AREAS, LENT_STATE));
}

/* Are more than so many places left? On the way the log is settled where the plan says so. */
static bool more_than(uint64_t left)
{
    if (plan->flags & HALF && !halved && places_free() <= PLACES * worst.groups / 2) {
        halved = true;
        settle();
    }
    return !failed && places_free() > left;
}

static void commit_one(uint64_t writer)
{
    begin(writer);
    store(writer, next_home());
    commit(writer);
}

/* A transaction of each of the writers, block by block in turn. */
static void commit_each(uint64_t from, uint64_t writers)
{
    uint64_t w;
    unsigned i;

    for (w = from; w < from + writers; w++)
        begin(w);
    for (i = 0; i < plan->blocks; i++)
        for (w = from; w < from + writers; w++)
            store(w, next_home());
    for (w = 0; w < writers; w++)
        commit(plan->flags & REVERSED ? from + writers - 1 - w : from + w);
}

static void overlap(void)
{
    uint64_t w;

    for (w = 0; w < KAGUTIN_WRITERS; w++)
        begin(w);
    for (w = 0; more_than(plan->left + KAGUTIN_WRITERS); w = (w + 1) % KAGUTIN_WRITERS)
        store(w, next_home());
    for (w = 0; w < KAGUTIN_WRITERS; w++)
        commit(w);
}

static void drop_one(uint64_t writer)
{
    int i;

    begin(writer);
    for (i = 0; i < 8; i++)
        store(writer, next_home());
    done(kagutin_abort(LENT_AREAS, LENT_STATE, writer));
}

static void store_on(uint64_t writer)
{
    while (more_than(plan->left))
        store(writer, next_home());
}

static void fill(void)
{
    bool shared = plan->flags & OWNED;

    switch (plan->fill) {
    case OVERLAP: overlap(); return;
    case OWN: store_on(OWNER); return;
    case OTHERS:
        begin(OTHER);
        store_on(OTHER);
        return;
    case DROPPED:
        while (more_than(plan->left + 8))
            drop_one(OTHER);
        break;
    default:
        while (more_than(plan->left + plan->writers * plan->blocks))
            commit_each(shared ? OTHER : 0, plan->writers);
    }
    while (more_than(plan->left))
        commit_one(OTHER);
}

/* Half a ring of commits, settled and trimmed. */
static void wrap(void)
{
    while (!failed && places_free() > PLACES * worst.groups / 2)
        commit_one(OTHER);
    settle();
    done(kagutin_trim(LENT_AREAS, LENT_STATE, LENT_NEWEST, LENT_BATCH));
}

/* All homes are everybody's, by the last of the ranges. */
static void store_list(void)
{
    static const uint8_t all[4] = {0, 0, 255, 255};
    size_t at;
    uint64_t i;

    for (at = 12; at < KAGUTIN_BLOCK_SIZE; at += 16)
        memcpy(worst.blocks + at, all, sizeof all);
    for (i = 0; i < 4; i++)
        store(OWNER, FREE - 4 + i);
    memset(worst.blocks, 0, sizeof worst.blocks);
}

static void open_all(void)
{
    uint64_t w;

    if (plan->flags & PROMISED)
        done(kagutin_reserve(LENT_AREAS, LENT_STATE, OWNER, plan->fill == OWN ? places_free() - (KAGUTIN_WRITERS - 2) : 2));
    else
        begin(OWNER);
    store(OWNER, next_home());
    store(OWNER, next_home());
    if (plan->flags & LIST_OWN)
        store_list();
    for (w = OTHER + 1; plan->flags & ACTIVE && w < KAGUTIN_WRITERS; w++) {
        begin(w);
        store(w, next_home());
        store(w, next_home());
    }
}

/* The last writer's transaction is committed after the round has begun; then the owner's fills the log. */
static void lie_across(void)
{
    begin(LAST);
    store(LAST, next_home());
    store(LAST, next_home());
    while (more_than(plan->left + 3 * PLACES))
        commit_one(OTHER);
    fence();
    done(kagutin_begin_round(LENT_AREAS, LENT_STATE));
    commit(LAST);
    if (plan->flags & PROMISED)
        done(kagutin_reserve(LENT_AREAS, LENT_STATE, OWNER, places_free()));
    else
        begin(OWNER);
    store_on(OWNER);
}

static void before_filling(void)
{
    if (plan->flags & UNITS)
        worst_units(false);
    if (plan->flags & WRAPPED)
        wrap();
    if (plan->flags & LISTED) {
        begin(OWNER);
        store_list();
        commit(OWNER);
    }
    if (plan->flags & UNITS)
        worst_units(true);
    while (plan->flags & GROUP_ONE && !failed && places_free() > PLACES * (worst.groups - 1))
        commit_one(OTHER);
    if (plan->flags & OWNED)
        open_all();
}

static void after_filling(void)
{
    if (plan->flags & FENCED)
        fence();
    if (plan->flags & SETTLED)
        settle();
    if (plan->flags & IN_ROUND)
        done(kagutin_begin_round(LENT_AREAS, LENT_STATE));
    if (plan->damage)
        plan->damage();
}

bool worst_make(const struct worst_log *log, size_t groups, size_t homes)
{
    plan = log;
    worst.groups = groups;
    worst.homes = homes;
    worst.batch_size = sizeof worst.batch;
    stored = 0;
    failed = halved = false;
    memset(worst.blocks, 0, sizeof worst.blocks);
    done(kagutin_format(LENT_AREAS, LENT_BATCH));
    done(kagutin_open(LENT_AREAS, LENT_STATE, LENT_NEWEST, LENT_BATCH));
    before_filling();
    if (plan->flags & ACROSS)
        lie_across();
    else
        fill();
    after_filling();
    memcpy(kept.log, LENT_LOG);
    memcpy(kept.state, LENT_STATE);
    memcpy(kept.newest, LENT_NEWEST);
    return !failed;
}

void worst_restore(void)
{
    memcpy(worst.log, kept.log, KAGUTIN_HEADER_SIZE + KAGUTIN_GROUP_SIZE * worst.groups);
    memcpy(worst.state, kept.state, sizeof worst.state);
    memcpy(worst.newest, kept.newest, KAGUTIN_POSITION_SIZE * worst.homes);
    worst.batch_size = sizeof worst.batch;
}
