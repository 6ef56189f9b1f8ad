/*
 * What each call costs on a bare board: instructions, by the system timer of an emulator that counts one nanosecond for each
 * (-icount shift=0), and the deepest stack. At G 1,024 and D 4,096 eight writers have a transaction of 4 blocks each open at once and
 * store and commit in turn; flush and confirm follow every eighth commit, and settle, confirm and trim a log of three quarters. Then
 * the log is filled and read, settled by a step of 8 homes and whole, and opened.
 */
#include <string.h>

#include "replay.h"
#include "say.h"

#define SYSTICK_CONTROL (*(volatile uint32_t *)0xe000e010)
#define SYSTICK_RELOAD (*(volatile uint32_t *)0xe000e014)
#define SYSTICK_NOW (*(volatile uint32_t *)0xe000e018)

enum { PAINT = 0xa5, PAINTED = 40960, EIGHTS = 500, SETTLED_AFTER = 168, BLOCKS = 4 };

static struct {
    unsigned long calls, depth;
    uint64_t ticks;
} cost[CALLS + 1];

void observe(enum call call, struct kagutin_reply reply, uint64_t hash)
{
    (void)call, (void)reply, (void)hash;
}

void complain(const char *what)
{
    say(what);
}

/* Ticks of one call; CALLS stands for none. */
static __attribute__((noinline)) uint32_t timed(unsigned call, uint64_t writer, uint64_t home, struct kagutin_reply *reply)
{
    uint32_t start = SYSTICK_NOW, end;

    if (call < CALLS)
        *reply = make_call((enum call)call, writer, home);
    end = SYSTICK_NOW;
    return (start - end) & 0xffffffu;
}

/* Paints what lies below the stack pointer, and looks how far down the call has been. */
static __attribute__((noinline)) void measure(unsigned call, uint64_t writer, uint64_t home, int with_stack,
                                              struct kagutin_reply *reply)
{
    volatile uint8_t *below;
    unsigned long n;

    __asm__ volatile("mov %0, sp" : "=r"(below));
    below -= PAINTED;
    for (n = 0; with_stack && n < PAINTED; n++)
        below[n] = PAINT;
    cost[call].ticks += timed(call, writer, home, reply);
    cost[call].calls++;
    for (n = 0; with_stack && n < PAINTED && below[n] == PAINT; n++)
        ;
    if (with_stack && PAINTED - n > cost[call].depth)
        cost[call].depth = PAINTED - n;
}

/* Forgets the calls of one kind so far, not their stack. */
static void forget(enum call call)
{
    cost[call].calls = 0;
    cost[call].ticks = 0;
}

static struct kagutin_reply one(enum call call, uint64_t writer, uint64_t home, int with_stack)
{
    struct kagutin_reply reply = {0, 0, 0};

    measure(CALLS, 0, 0, with_stack, &reply);
    measure(call, writer, home, with_stack, &reply);
    if (reply.code != KAGUTIN_DONE && reply.code != KAGUTIN_FULL)
        complain("a call is refused\n");
    return reply;
}

/* Behind the list of rights. */
static uint32_t random_home(void)
{
    static uint64_t seed = 7;

    seed = seed * UINT64_C(6364136223846793005) + UINT64_C(1442695040888963407);
    return 12 + (uint32_t)(seed >> 32) % (MOST_HOMES - 12);
}

/* A commit of 4 blocks; 0 if the log is full. */
static int commit(uint64_t writer, int with_stack)
{
    unsigned k;

    one(BEGIN, writer, 0, with_stack);
    for (k = 0; k < BLOCKS; k++)
        if (one(STORE, writer, random_home(), with_stack).code)
            return 0;
    return !one(COMMIT, writer, 0, with_stack).code;
}

/* A commit of 4 blocks of each writer, all open at once, block by block in turn. */
static void commit_eight(int with_stack)
{
    unsigned w, k;

    for (w = 0; w < KAGUTIN_WRITERS; w++)
        one(BEGIN, w, 0, with_stack);
    for (k = 0; k < BLOCKS; k++)
        for (w = 0; w < KAGUTIN_WRITERS; w++)
            if (one(STORE, w, random_home(), with_stack).code)
                complain("the log is full\n");
    for (w = 0; w < KAGUTIN_WRITERS; w++)
        if (one(COMMIT, w, 0, with_stack).code)
            complain("the log is full\n");
}

static void steady(void)
{
    unsigned k;

    for (k = 0; k < EIGHTS; k++) {
        commit_eight(k < 5);
        one(FLUSH, 0, 0, k < 5);
        one(CONFIRM, 0, 0, k < 5);
        if (k % SETTLED_AFTER == SETTLED_AFTER - 1) {
            one(SETTLE, 0, 0, 1);
            one(CONFIRM, 0, 0, 1);
            one(TRIM, 0, 0, 1);
        }
    }
}

static void show(const char *name, unsigned call, uint64_t ticks_each)
{
    uint64_t empty = cost[CALLS].ticks * ticks_each / cost[CALLS].calls;
    uint64_t each = cost[call].ticks * ticks_each / cost[call].calls - empty;
    unsigned long base = cost[CALLS].depth;

    say(name);
    say("\t");
    say_number((unsigned long)each);
    say("\t");
    say_number(cost[call].depth - base);
    say("\n");
}

int main(void)
{
    unsigned call;

    SYSTICK_RELOAD = 0xffffff;
    SYSTICK_NOW = 0;
    SYSTICK_CONTROL = 5;
    lend(KAGUTIN_MAX_GROUPS, MOST_HOMES, kagutin_format_batch(KAGUTIN_MAX_GROUPS, MOST_HOMES));
    one(FORMAT, 0, 0, 1);
    one(OPEN, 0, 0, 1);
    forget(OPEN);
    steady();
    for (call = BEGIN; call < CALLS; call++)
        if (cost[call].calls)
            show(call_names[call], call, NS_EACH_TICK);
    forget(SETTLE);
    while (commit(0, 0))
        ;
    one(ABORT, 0, 0, 1);
    one(FLUSH, 0, 0, 1);
    one(READ, 0, 77, 1);
    one(BEGIN_ROUND, 0, 0, 1);
    one(STEP_ROUND, 0, 8, 1);
    make_call(STEP_ROUND, 0, MOST_HOMES);
    one(SETTLE, 0, 0, 1);
    one(OPEN, 0, 0, 1);
    show("read, full log", READ, NS_EACH_TICK);
    show("settle, full log", SETTLE, NS_EACH_TICK);
    show("begin_round", BEGIN_ROUND, NS_EACH_TICK);
    show("step_round, 8 homes, full log", STEP_ROUND, NS_EACH_TICK);
    show("open, full log", OPEN, NS_EACH_TICK);
    show("format", FORMAT, NS_EACH_TICK);
    show("abort", ABORT, NS_EACH_TICK);
    return 0;
}
