/* Calls with power cuts that every machine plays alike. Each reply and a hash of all lent bytes go to observe(). */
#ifndef REPLAY_H
#define REPLAY_H

#include "../../tests/common/calls.h"
#include "kagutin.h"

enum call { KAGUTIN_CALLS(CALL_CONSTANT) USAGE, CALLS };

/* Room for one group and one home above the largest store that is played: the trials lend these too. */
enum {
    GROUPS = KAGUTIN_MAX_GROUPS + 1,
    MOST_HOMES = 4096, /* a board has no memory for more */
    HOMES = MOST_HOMES + 1,
    LOG_ROOM = KAGUTIN_HEADER_SIZE + KAGUTIN_GROUP_SIZE * GROUPS,
    AREA_ROOM = KAGUTIN_BLOCK_SIZE * HOMES,
    NEWEST_ROOM = KAGUTIN_POSITION_SIZE * HOMES,
    BATCH_ROOM = KAGUTIN_GW_SIZE * GROUPS + KAGUTIN_HW_SIZE * HOMES + 256
};

/* What is lent to the next call. */
struct lent {
    size_t groups, homes;
    size_t log_size, area_size, state_size, newest_size, block_size, batch_size;
    uint8_t log[LOG_ROOM], area[AREA_ROOM], state[KAGUTIN_STATE_SIZE], newest[NEWEST_ROOM], block[KAGUTIN_BLOCK_SIZE],
        batch[BATCH_ROOM];
};

extern struct lent lent;
extern const char *const call_names[CALLS];

/* Lends copies of a store of this shape, with every byte set, and a batch buffer of this size. */
void lend(size_t groups, size_t homes, size_t batch_size);

/* The call alone; of a step `home` is the number of homes, of a reserve that of places. What usage tells goes to the block. */
struct kagutin_reply make_call(enum call call, uint64_t writer, uint64_t home);

/* The call, observed. */
struct kagutin_reply play(enum call call, uint64_t writer, uint64_t home);

/* Each call that is played ends here; main() of the recorder and of the checker have it. */
void observe(enum call call, struct kagutin_reply reply, uint64_t hash);

/* A figure of the paper that does not hold, or that the recorder and checker find otherwise. */
void complain(const char *what);

/* Lasting memory: what the driver has been asked to write since the last fence may persist at a cut, each write or not. */
void lasting_start(void);
void lasting_run(size_t size, size_t records);
void lasting_cut(uint32_t (*coin)(void));
extern unsigned long cuts;

/* The paper's trials with its figures; random histories with cuts and damaged bytes. */
void play_trials(void);
void play_histories(unsigned long calls);

#endif
