/*
 * Broken drivers of the power-loss kit do lose what a store has
 * confirmed, or bring back half of a commit: each under a random workload, with
 * power cuts and failures of the medium; the good one never does. So what the
 * kit calls broken is. Arguments: games with a broken one, at most, and with the
 * good one.
 *
 * Torn words are left out: halves of a number change together only where it
 * passes 2^16, and there a cut must meet a trim inside a round. The kit finds
 * them all the same; a workload is not what finds a driver's faults.
 */
#include <stdio.h>
#include <stdlib.h>
#include <string.h>

#include "../common/play.h"
#include "powerloss/broken.h"

enum { GROUPS = 4, HOMES = 8, SIZE = KGT_LOG_SIZE(GROUPS) + KGT_HOMES_SIZE(HOMES), STEPS = 150, ROUNDS = 40 };

static uint8_t memory[KGT_MEMORY_SIZE(GROUPS, HOMES)], scratch[KGT_FORMAT_SIZE(GROUPS, HOMES)], lasting[KGT_SIM_MEMORY(SIZE)];
static struct broken_driver broken;
static struct kgt_medium medium;
static struct kagutin store;
static struct play play;

static bool start(void)
{
    return kgt_init(&store, memory, sizeof memory, GROUPS, HOMES, broken_start(&broken)).code == KAGUTIN_DONE;
}

static bool begin(enum broken kind, uint64_t seed)
{
    broken_init(&broken, kind, lasting, GROUPS, HOMES);
    medium = kgt_sim_medium(&broken.sim);
    play_start(&play, &store, HOMES, seed);
    if (!start() || kgt_format(&store, scratch, sizeof scratch).code != KAGUTIN_DONE)
        return false;
    medium.cut(medium.context, KGT_ALL_ARRIVE, 0);
    return start();
}

/* Power is cut and comes back; any choice of what was under way arrives. */
static bool restart(void)
{
    medium.cut(medium.context, (enum kgt_choice)play_random(&play, 3), play_random(&play, UINT64_MAX));
    return start();
}

/* Some work. What a driver confirms without power counts for nothing: then the processor stands still. */
static void work(void)
{
    unsigned steps;
    bool goes_on = true;

    for (steps = 0; steps < STEPS && goes_on; steps++) {
        uint64_t confirmed = play.confirmed;

        goes_on = play_work(&play, 1) && (steps % 3 || kgt_maintain(&store, 1).code == KAGUTIN_DONE)
            && medium.has_power(medium.context);
        if (!medium.has_power(medium.context)) {
            play.confirmed = confirmed;
            play.wrong = NULL;
        }
    }
}

/* An opening and work until power fails, or the medium does; then a restart, or the next opening in place. */
static bool round_right(void)
{
    bool fails = play_random(&play, 2) == 0;
    uint64_t code;

    medium.arm(medium.context, fails ? UINT64_MAX : play_random(&play, 1200), fails ? 1 + play_random(&play, 200) : 0);
    code = kgt_open(&store).code;
    if (!medium.has_power(medium.context))
        return restart();
    if (code == KAGUTIN_DONE) {
        if (!play_opened(&play))
            return false;
        work();
    }
    if (!medium.has_power(medium.context))
        return restart();
    medium.arm(medium.context, UINT64_MAX, 0);
    return !play.wrong && (code == KAGUTIN_DONE || code == KGT_DRIVER_FAILED) && (play_random(&play, 2) || restart());
}

/* The game in which the store is wrong; 0 if it never is. */
static unsigned wrong_game(enum broken kind, unsigned games)
{
    unsigned game, round;

    for (game = 1; game <= games; game++) {
        if (!begin(kind, game))
            return game;
        for (round = 0; round < ROUNDS; round++)
            if (!round_right())
                return game;
    }
    return 0;
}

int main(int count, char **words)
{
    unsigned games = count > 1 ? (unsigned)atoi(words[1]) : 2000, good = count > 2 ? (unsigned)atoi(words[2]) : games, kind,
             found;

    for (kind = BROKEN_NOT; kind < BROKEN_KINDS; kind++) {
        if (kind == BROKEN_WORDS_TORN)
            continue;
        found = wrong_game((enum broken)kind, kind == BROKEN_NOT ? good : games);
        printf("broken_check: %s: %s\n", broken_names[kind], found ? play.wrong ? play.wrong : "no store comes back" : "right");
        if ((found == 0) != (kind == BROKEN_NOT)) {
            printf("broken_check: wrong: %s, game %u\n", broken_names[kind], found);
            return 1;
        }
    }
    puts("broken_check: right");
    return 0;
}
