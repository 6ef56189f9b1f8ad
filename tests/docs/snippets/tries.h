/*
 * Where snippets of the documents are tried: a driver that fails at its n-th
 * call, logs with room and without, a power cut afterwards, and a store of the
 * judge's own that opens what the cut has left.
 */
#ifndef TRIES_H
#define TRIES_H

#include <stdio.h>
#include <stdlib.h>
#include <string.h>

#include "kagutin_store.h"

#ifdef __cplusplus
extern "C" {
#endif

enum { TRY_GROUPS = 16, TRY_HOMES = 32, TRY_PLACES = KAGUTIN_GROUP_ENTRIES * TRY_GROUPS };

/* Writers and homes of the judge; snippets have the others. */
enum { TRY_FILLER = 5, TRY_HOLDER = 6, TRY_FILLED = 15, TRY_HELD = 30 };

/* With room; full; full and held back by an open transaction; full, and room is left to the task that maintains. */
enum try_log { TRY_ROOMY, TRY_FULL, TRY_HELD_BACK, TRY_LEFT, TRY_LOGS };

/* Of what was written since the last fence a cut lets this arrive. */
enum try_lands { TRY_NONE_LANDS, TRY_ALL_LANDS, TRY_SOME_LANDS, TRY_LANDINGS };

struct try_case {
    enum kgt_landing landing;
    enum try_log log;
    enum try_lands lands;
    unsigned long call; /* of the driver that fails; 0: none */
    int error;
    bool for_good; /* every call after it fails, too */
};

/*
 * Tries something with a good driver, then with one that fails at its first,
 * second and so on call, by 1, -5 and 2^31 - 1, until a try meets no failure; in
 * every log and with every landing. The try says whether it met the failure.
 */
void try_all(bool (*attempt)(const struct try_case *now));

/* Says how many tries and checks there were. Status for main. */
int try_end(const char *name);

/* Ends the program if it is not right. */
void try_check(bool right, const char *what);

/* ---- a driver that fails ---- */

/* From now on the driver fails as the case says; then no more, and whether it has. */
void try_arm(const struct try_case *now);
bool try_disarm(void);

/* One call of a driver: 0, or the error. */
int try_failure(void);

/* Another driver, failing. There is one at a time. */
struct kgt_driver try_failing(struct kgt_driver inner);

/* ---- a medium in memory ---- */

/* A formatted one; its driver fails when armed. */
struct kgt_driver try_medium(enum kgt_landing landing);

/* A snippet's store, opened on such a medium. */
void try_start(struct kagutin *store, enum kgt_landing landing);

/* A home's block in lasting memory. */
const uint8_t *try_lasting(uint64_t home);

/* Power is cut. Which unit arrives, by its number. */
void try_cut(enum try_lands lands);
bool try_unit_lands(enum try_lands lands, size_t unit);

/* The judge's own store, opened on the medium, or on a driver; must succeed. */
struct kagutin *try_opened(void);
struct kagutin *try_opened_on(struct kgt_driver driver);

/* ---- logs and blocks ---- */

/* Makes the log of an open store what the case says, by commits to home 15. Then room again, whatever it was. */
void try_fill(struct kagutin *store, enum try_log log);
void try_free(struct kagutin *store);

/* A block made from a number. */
void try_block(uint8_t *block, unsigned number);

/*
 * A snippet has tried to replace a block of a home: kept is what it concluded,
 * met that the driver failed. Cuts the power and opens.
 */
void try_judge(const struct try_case *now, bool kept, bool met, uint64_t home, const uint8_t *before, const uint8_t *after);

#ifdef __cplusplus
}
#endif

#endif
