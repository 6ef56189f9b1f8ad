/* Random histories: valid calls with cuts, odd arguments, and now and then damaged copies. */
#include <string.h>

#include "replay.h"

static uint64_t seed = 1;

/* Drawn in one order on every machine: never twice in one expression whose order C leaves open. The high half of a linear congruential generator. */
static uint32_t random32(void)
{
    seed = seed * UINT64_C(6364136223846793005) + UINT64_C(1442695040888963407);
    return (uint32_t)(seed >> 32);
}

static uint32_t below(uint32_t n)
{
    return random32() % n;
}

static int one_in(uint32_t n)
{
    return below(n) == 0;
}

/* Opens what lasting memory holds; the opening itself may be cut short. */
static void reopen(void)
{
    struct kagutin_reply reply;

    do {
        lasting_cut(random32);
        reply = play(OPEN, 0, 0);
    } while (reply.code == KAGUTIN_DONE && one_in(4) && (lasting_run((size_t)reply.size, below(12)), 1));
    if (reply.code == KAGUTIN_DONE)
        lasting_run((size_t)reply.size, (size_t)-1);
}

static enum call any_call(void)
{
    static const uint8_t weights[CALLS] =
        {[BEGIN] = 6, [ABORT] = 1, [STORE] = 18,      [COMMIT] = 4,     [FLUSH] = 2,   [CONFIRM] = 2, [SETTLE] = 1,
         [TRIM] = 1,  [READ] = 3,  [BEGIN_ROUND] = 1, [STEP_ROUND] = 3, [RESERVE] = 2, [USAGE] = 2};
    uint32_t n = below(46);
    unsigned k = BEGIN;

    while (n >= weights[k])
        n -= weights[k++];
    return (enum call)k;
}

/* A block of the list of rights: ranges of two writers, to store and to read, each all homes, a few or none. */
static void fill_list(void)
{
    int none = one_in(6);
    size_t at;

    memset(lent.block, 0, sizeof lent.block);
    for (at = 0; at < sizeof lent.block && !none; at += 16) {
        int wide = !one_in(3);
        uint32_t first = wide ? 0 : below((uint32_t)lent.homes);
        uint32_t number = wide ? 65535 : below(8);

        lent.block[at] = (uint8_t)first;
        lent.block[at + 1] = (uint8_t)(first >> 8);
        lent.block[at + 2] = (uint8_t)number;
        lent.block[at + 3] = (uint8_t)(number >> 8);
    }
}

/* A call with arguments that are mostly right; then its batch is carried out, whole or up to a cut. */
static void step(size_t full_batch)
{
    enum call call = any_call();
    uint64_t writer = below(one_in(6) ? KAGUTIN_WRITERS : 2), home = below((uint32_t)lent.homes);
    struct kagutin_reply reply;

    if (call == STEP_ROUND)
        home = below(4);
    if (call == RESERVE)
        home = below(12);
    if (one_in(40))
        writer = one_in(2) ? KAGUTIN_WRITERS : (uint64_t)random32() << 32;
    if (one_in(40))
        home = one_in(2) ? lent.homes : home | (uint64_t)random32() << 32;
    lent.batch_size = one_in(30) ? below(600) : full_batch;
    lent.state_size = one_in(200) ? sizeof lent.state - 1 : sizeof lent.state;
    memset(lent.block, (int)below(256), sizeof lent.block);
    if (call == STORE && home >= 8 && home < 12 && !one_in(20))
        fill_list();
    reply = play(call, writer, home);
    if (reply.code != KAGUTIN_DONE)
        return;
    if (one_in(70)) {
        lasting_run((size_t)reply.size, below(8));
        lent.batch_size = full_batch;
        reopen();
    } else
        lasting_run((size_t)reply.size, (size_t)-1);
}

/* One byte of the strip or of the log, a tag's more often than others. */
static void flip(void)
{
    uint8_t bit = (uint8_t)(1u << below(8));
    size_t at;

    if (one_in(3)) {
        at = below(one_in(2) ? 128 : sizeof lent.state);
        lent.state[at] ^= bit;
    } else if (one_in(2)) {
        at = below((uint32_t)lent.log_size);
        lent.log[at] ^= bit;
    } else {
        at = kagutin_log_size(below((uint32_t)lent.groups));
        at += below(64);
        lent.log[at] ^= bit;
    }
}

/* Damages the copies and makes calls on them; then all is loaded and opened afresh. */
static void damage(size_t full_batch)
{
    unsigned flips = 1 + below(6), calls = 1 + below(5);

    while (flips-- > 0)
        flip();
    lent.state_size = sizeof lent.state;
    lent.batch_size = full_batch;
    while (calls-- > 0) {
        enum call call = one_in(4) ? OPEN : any_call();
        uint64_t writer = below(KAGUTIN_WRITERS), home = below((uint32_t)lent.homes);

        play(call, writer, home);
    }
    reopen();
}

static void history(size_t groups, size_t homes, unsigned long calls)
{
    size_t full_batch = kagutin_format_batch(groups, homes);
    struct kagutin_reply reply;

    lend(groups, homes, full_batch);
    lasting_start();
    reply = play(FORMAT, 0, 0);
    lasting_run((size_t)reply.size, (size_t)-1);
    reopen();
    while (calls-- > 0) {
        step(full_batch);
        if (one_in(120))
            damage(full_batch);
    }
}

void play_histories(unsigned long calls)
{
    static const struct {
        size_t groups, homes;
    } shapes[] = {{4, 8}, {5, 1}, {6, 24}, {9, 70}, {64, 7}};
    unsigned k;

    for (k = 0; k < sizeof shapes / sizeof shapes[0]; k++)
        history(shapes[k].groups, shapes[k].homes, calls / 5);
    history(KAGUTIN_MAX_GROUPS, MOST_HOMES, 12);
}
