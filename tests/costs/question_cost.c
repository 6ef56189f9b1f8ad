/*
 * What question 2 costs: question_cost CASE makes the case at G 1,024 and then one confirm, whose instructions callgrind counts
 * (tests/costs/question-cost.sh). Without words it lists the cases, each with the most that question 2 may take there in the archive, and the most that
 * confirm may take in the C file by gcc; 0 for no limit.
 */
#include <stdbool.h>
#include <stdio.h>
#include <stdlib.h>
#include <string.h>

#include "kagutin.h"

enum { GROUPS = KAGUTIN_MAX_GROUPS, HOMES = 64 };

/* What the active writers have done: begun, hold a block, have logged one too. */
enum does { BEGUN, HOLDS, LOGS };

/* What is under way beside them: nothing, a round, places promised to every active writer, both. */
enum pending { NOTHING, ROUND = 1, PROMISES = 2, BOTH = 3 };

static const struct shape {
    const char *name;
    uint64_t writers; /* so many of them are active */
    enum does does;
    enum pending pending;
    unsigned most, most_confirm;
} shapes[] = {
    {"idle", 0, BEGUN, NOTHING, 60, 90},     {"one-begun", 1, BEGUN, NOTHING, 60, 90},  {"one-holds", 1, HOLDS, NOTHING, 64, 105},
    {"one-logs", 1, LOGS, NOTHING, 70, 110}, {"eight-hold", 8, HOLDS, NOTHING, 0, 190}, {"eight-log", 8, LOGS, NOTHING, 0, 240},
    {"round", 0, BEGUN, ROUND, 0, 130},      {"promise", 1, BEGUN, PROMISES, 0, 130},   {"both", 1, BEGUN, BOTH, 0, 130},
};

static uint8_t log_area[KAGUTIN_HEADER_SIZE + KAGUTIN_GROUP_SIZE * GROUPS], area[KAGUTIN_BLOCK_SIZE * HOMES];
static uint8_t state[KAGUTIN_STATE_SIZE], newest[KAGUTIN_POSITION_SIZE * HOMES], block[KAGUTIN_BLOCK_SIZE];
static uint8_t batch[KAGUTIN_GW_SIZE * GROUPS + KAGUTIN_HW_SIZE * HOMES + 1024];

#define AREAS log_area, sizeof log_area, area, sizeof area
#define STATE state, sizeof state
#define NEWEST newest, sizeof newest
#define BATCH batch, sizeof batch

static void done(struct kagutin_reply reply)
{
    if (reply.code == KAGUTIN_DONE)
        return;
    printf("question_cost: answer %lu\n", (unsigned long)reply.code);
    exit(1);
}

static void store_one(uint64_t writer, uint64_t home)
{
    done(kagutin_store(AREAS, STATE, block, sizeof block, BATCH, writer, home));
}

static void act(uint64_t writer, enum does does, bool promised)
{
    done(promised ? kagutin_reserve(AREAS, STATE, writer, 5) : kagutin_begin(AREAS, STATE, writer));
    if (does >= HOLDS)
        store_one(writer, 20 + writer);
    if (does == LOGS)
        store_one(writer, 40 + writer);
}

/* The call whose instructions count; kept a function of its own, so that callgrind knows its beginning. */
__attribute__((noinline)) static struct kagutin_reply counted(void)
{
    return kagutin_confirm(AREAS, STATE);
}

static int run(const struct shape *shape)
{
    uint64_t writer;

    done(kagutin_format(AREAS, BATCH));
    done(kagutin_open(AREAS, STATE, NEWEST, BATCH));
    act(0, LOGS, false); /* a commit, so that there is a last one */
    done(kagutin_commit(AREAS, STATE, NEWEST, BATCH, 0));
    if (shape->pending & ROUND) {
        done(kagutin_flush(AREAS, STATE, BATCH));
        done(kagutin_begin_round(AREAS, STATE));
    }
    for (writer = 0; writer < shape->writers; writer++)
        act(writer, shape->does, shape->pending & PROMISES);
    done(counted());
    return 0;
}

int main(int count, char **words)
{
    size_t i;

    for (i = 0; i < sizeof shapes / sizeof shapes[0]; i++) {
        if (count < 2)
            printf("%s %u %u\n", shapes[i].name, shapes[i].most, shapes[i].most_confirm);
        else if (strcmp(words[1], shapes[i].name) == 0)
            return run(&shapes[i]);
    }
    return count >= 2;
}
