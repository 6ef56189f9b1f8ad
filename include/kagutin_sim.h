/*
 * Lasting memory in ordinary memory, to stand below a driver on a PC: what it
 * has taken and not yet kept is lost at a power cut, or a part of it, as the cut
 * chooses. It has two faces; a driver uses one.
 *
 * Memory behind a cache, as persistent memory or a disk: write goes to the
 * cache, read shows the cache, flush brings it to lasting memory. A flush may
 * also be begun and left to itself. One that fails has landed some units; of the
 * others it still knows (they go with the next flush) or it has forgotten them
 * and shows them all the same, as an fdatasync that failed may leave it.
 *
 * A serial FRAM: a transfer's bytes are in the chip at once, one after the
 * other. Commands 06 write enable, 02 write, 03 read, with two or three address
 * bytes, as kagutin_fram.h wants them.
 */
#ifndef KAGUTIN_SIM_H
#define KAGUTIN_SIM_H

#include "kagutin_powerloss.h"

#ifdef __cplusplus
extern "C" {
#endif

#define KGT_SIM_NO_POWER 5 /* the error of every call while power is off */
#define KGT_SIM_FAILED 7   /* of a call that was told to fail */

enum kgt_sim_state { KGT_SIM_KEPT, KGT_SIM_UNDER_WAY, KGT_SIM_FORGOTTEN }; /* of a unit */

struct kgt_sim {
    uint8_t *lasting, *shown, *state; /* what a cut leaves; with all writes; one of kgt_sim_state for each unit */
    size_t size, unit;                /* unit: bytes that land whole */
    uint64_t power;                   /* landings until power fails */
    uint64_t failing;                 /* calls until one fails; 0: none does */
    uint64_t landings, calls;
    bool off, flushing, write_enabled;
    size_t flushed; /* a flush that was begun has come to here */
    unsigned failures;
};

/* Three arrays of size bytes, a multiple of 64. unit is 1, 2, 4, 8 or 64. */
void kgt_sim_init(struct kgt_sim *sim, uint8_t *memory, size_t size, size_t unit);
#define KGT_SIM_MEMORY(size) (KGT_BYTES(3) * (size))

/* For the kit. */
struct kgt_medium kgt_sim_medium(struct kgt_sim *sim);

/* Memory behind a cache. Each returns 0, or an error above. */
int kgt_sim_read(struct kgt_sim *sim, size_t at, uint8_t *bytes, size_t size);
int kgt_sim_write(struct kgt_sim *sim, size_t at, const uint8_t *bytes, size_t size);
int kgt_sim_flush(struct kgt_sim *sim);
int kgt_sim_begin_flush(struct kgt_sim *sim);
bool kgt_sim_flushes(struct kgt_sim *sim); /* is it still under way? Some more units have landed. */
int kgt_sim_drop(struct kgt_sim *sim);     /* the cache forgets what is not kept, and shows lasting memory */

/* A serial FRAM; bus is the sim, whose unit is 1. */
int kgt_sim_transfer(void *bus, const uint8_t *command, size_t command_size, const uint8_t *out, uint8_t *in, size_t size);

#ifdef __cplusplus
}
#endif

#endif
