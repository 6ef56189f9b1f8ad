/*
 * Deepest stack of each call in bytes, on a painted stack, with a full log and with a damaged one that takes two passes: in a small log, whose calls
 * stay below 6 KiB whatever the number of homes, and in the largest one, whose calls stay below 32 KiB. Status 1 above these.
 */
/* Clauses: [S-9] */
#include <stdio.h>
#include <stdlib.h>
#include <string.h>
#include <ucontext.h>

#include "../common/calls.h"
#include "kagutin.h"
#include "kagutin_chains.h"

enum { GROUPS = 1024, HOMES = 65535, FREE = 12 /* the homes behind the list of rights */, BLOCKS = 7, STACK = 1 << 18 };
enum { KAGUTIN_CALLS(CALL_CONSTANT) USAGE, FETCH, REVISE, TRANSACT, EMPTY };

static uint8_t log_area[KAGUTIN_HEADER_SIZE + KAGUTIN_GROUP_SIZE * GROUPS], area[KAGUTIN_BLOCK_SIZE * HOMES];
static uint8_t state[KAGUTIN_STATE_SIZE], newest[KAGUTIN_POSITION_SIZE * HOMES], block[KAGUTIN_BLOCK_SIZE], batch[5 << 20];
static uint8_t blocks[BLOCKS * KAGUTIN_BLOCK_SIZE];
static unsigned char stack[STACK];
static ucontext_t main_context, call_context;
static int which;
static size_t groups, homes;
static uint64_t who, where;
static struct kagutin_reply reply;

#define AREAS log_area, KAGUTIN_HEADER_SIZE + KAGUTIN_GROUP_SIZE *groups, area, KAGUTIN_BLOCK_SIZE *homes
#define STATE state, sizeof state
#define NEWEST newest, KAGUTIN_POSITION_SIZE *homes
#define BATCH batch, sizeof batch
#define BLOCK block, sizeof block
#define WRITER who
#define HOME where
#define PLACES_ASKED 1
#define HOMES_ASKED 8
#define CASE(constant, name, arguments)                                                                                          \
    case constant: reply = kagutin_##name arguments; break;

static void body(void)
{
    switch (which) {
        KAGUTIN_CALLS(CASE)
    case USAGE: reply.code = kagutin_usage(AREAS, STATE).code; break;
    case FETCH: reply = kagutin_fetch(AREAS, STATE, NEWEST, blocks, sizeof blocks, who, where); break;
    case REVISE: reply = kagutin_revise(AREAS, STATE, NEWEST, blocks, sizeof blocks, who, where); break;
    case TRANSACT: reply = kagutin_transact(AREAS, STATE, NEWEST, blocks, sizeof blocks, BATCH, who, where); break;
    default: break;
    }
}

static size_t deepest[EMPTY + 1];

/* Runs one call on the painted stack and returns its answer. */
static uint64_t call(int k)
{
    size_t n = 0;

    memset(stack, 0xa5, sizeof stack);
    which = k;
    getcontext(&call_context);
    call_context.uc_stack.ss_sp = stack;
    call_context.uc_stack.ss_size = sizeof stack;
    call_context.uc_link = &main_context;
    makecontext(&call_context, body, 0);
    swapcontext(&main_context, &call_context);
    while (n < sizeof stack && stack[n] == 0xa5)
        n++;
    if (sizeof stack - n > deepest[k])
        deepest[k] = sizeof stack - n;
    return reply.code;
}

/* Ends the program if a call that must be done is refused. */
static void done(int k)
{
    if (call(k)) {
        fprintf(stderr, "stack: call %d at G %zu and D %zu: %u\n", k, groups, homes, (unsigned)reply.code);
        exit(2);
    }
}

/* Writer 0 commits a list of rights under which every writer may touch all, by the last of its ranges. */
static void give_all(void)
{
    static const uint8_t all[4] = {0, 0, 255, 255};
    size_t at;

    for (at = 12; at < sizeof block; at += 16)
        memcpy(block + at, all, sizeof all);
    who = 0;
    done(BEGIN);
    for (where = FREE - 4; where < FREE; where++)
        done(STORE);
    done(COMMIT);
}

/* A new store whose log is full of commits of two entries each; on the way it settles, and trims with commits past what is settled. */
static void fill(void)
{
    size_t i;

    done(FORMAT);
    done(OPEN);
    give_all();
    for (i = 0; i < 7 * groups; i++) {
        who = i % KAGUTIN_WRITERS;
        done(BEGIN);
        where = FREE + (i * 7) % (homes - FREE - BLOCKS);
        done(STORE);
        where++;
        if (call(STORE) || call(COMMIT))
            break;
        if (i == groups) {
            done(FLUSH);
            done(SETTLE);
        }
        if (i == groups + 10)
            done(TRIM);
    }
    call(ABORT);
    call(FLUSH);
    done(CONFIRM);
}

/* Each entry that neither closes nor comes later than the first of its transaction goes to the transaction two positions before, in all groups but the
   first half: in a log of commits of two entries it then comes after a closing entry of its own. */
static void lead_astray(void)
{
    size_t n, k;
    uint8_t *tag;

    for (n = groups / 2; n < groups; n++)
        for (k = 0; k < 7; k++) {
            tag = log_area + KAGUTIN_HEADER_SIZE + KAGUTIN_GROUP_SIZE * n + 8 + 8 * k;
            if ((tag[0] & 3) == 1 && !(tag[1] & 0xc0) && !tag[2] && !(tag[3] & 7))
                tag[1] |= 0x80; /* two positions back: bits 14 to 26 of the tag */
        }
}

/* Rounds, settle, trim, the call usage and the reads on a full log. */
static void work(void)
{
    who = 1;
    where = FREE;
    done(READ);
    done(FETCH);
    done(REVISE);
    done(USAGE);
    done(BEGIN_ROUND);
    while (call(STEP_ROUND) == KAGUTIN_DONE && reply.size % KAGUTIN_HW_SIZE == 0)
        ;
    done(SETTLE);
    done(TRIM);
}

/* Prints what each call took in stores of this shape. */
static int measure(size_t g, size_t d, size_t limit)
{
    static const char *names[] = {KAGUTIN_CALLS(CALL_NAME) "usage", "fetch", "revise", "transact"};
    int k, over = 0;

    groups = g;
    homes = d;
    memset(deepest, 0, sizeof deepest);
    fill();
    work();
    done(TRANSACT);
    done(OPEN);
    fill();
    lead_astray();
    work();
    done(OPEN);
    fill();
    lead_astray();
    done(SETTLE);
    done(OPEN);
    done(RESERVE);
    printf("G %zu, D %zu:", g, d);
    for (k = 0; k < EMPTY; k++) {
        printf(" %s %zu%s", names[k], deepest[k], deepest[k] > limit ? " (too much)" : "");
        over |= deepest[k] > limit;
    }
    printf("\n");
    return over;
}

int main(void)
{
    int over = measure(64, 4096, 6144);

    over |= measure(64, HOMES, 6144);
    over |= measure(GROUPS, HOMES, 32768);
    return over;
}
