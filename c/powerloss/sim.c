/* Lasting memory that can be cut, in ordinary memory. */
#include "kagutin_sim.h"

#include <string.h>

enum { WRITE_ENABLE = 0x06, WRITE = 0x02, READ = 0x03, AT_A_TIME = 4 /* units that land while a driver looks */ };

void kgt_sim_init(struct kgt_sim *sim, uint8_t *memory, size_t size, size_t unit)
{
    memset(sim, 0, sizeof *sim);
    sim->lasting = memory;
    sim->shown = memory + size;
    sim->state = memory + 2 * size;
    sim->size = size;
    sim->unit = unit;
    sim->power = UINT64_MAX;
    memset(memory, 0, 3 * size);
}

/* ---- power and failures ---- */

/* One unit arrives, if there is power for it. */
static bool land(struct kgt_sim *sim, size_t unit)
{
    if (sim->off || sim->power == 0) {
        sim->off = true;
        return false;
    }
    if (sim->power != UINT64_MAX)
        sim->power--;
    sim->landings++;
    memcpy(sim->lasting + unit * sim->unit, sim->shown + unit * sim->unit, sim->unit);
    sim->state[unit] = KGT_SIM_KEPT;
    return true;
}

/* Counts a call; 0 if it may go on. */
static int enter(struct kgt_sim *sim)
{
    if (sim->off)
        return KGT_SIM_NO_POWER;
    sim->calls++;
    if (sim->failing == 0 || --sim->failing > 0)
        return 0;
    sim->failures++;
    return KGT_SIM_FAILED;
}

static bool chosen(uint64_t seed, size_t unit)
{
    uint64_t word = seed + (unit + 1) * 0x9E3779B97F4A7C15u;

    word = (word ^ word >> 30) * 0xBF58476D1CE4E5B9u;
    word = (word ^ word >> 27) * 0x94D049BB133111EBu;
    return word >> 40 & 1;
}

/* ---- memory behind a cache ---- */

int kgt_sim_read(struct kgt_sim *sim, size_t at, uint8_t *bytes, size_t size)
{
    int error = enter(sim);

    if (at > sim->size || size > sim->size - at)
        return KGT_SIM_FAILED;
    if (!error)
        memcpy(bytes, sim->shown + at, size);
    return error;
}

/* A write that fails has been taken up to its middle, in whole units. */
int kgt_sim_write(struct kgt_sim *sim, size_t at, const uint8_t *bytes, size_t size)
{
    int error = enter(sim);
    size_t i, count = error ? size / 2 / sim->unit * sim->unit : size;

    if (sim->off || at > sim->size || size > sim->size - at)
        return error ? error : KGT_SIM_FAILED;
    memcpy(sim->shown + at, bytes, count);
    for (i = at / sim->unit; i * sim->unit < at + count; i++)
        sim->state[i] = KGT_SIM_UNDER_WAY;
    return error;
}

/* Units under way land, some of them if there is a limit; false if power failed. */
static bool flush_some(struct kgt_sim *sim, size_t limit)
{
    for (; sim->flushed * sim->unit < sim->size && limit > 0; sim->flushed++)
        if (sim->state[sim->flushed] == KGT_SIM_UNDER_WAY) {
            if (!land(sim, sim->flushed))
                return false;
            limit--;
        }
    sim->flushing = sim->flushed * sim->unit < sim->size;
    return true;
}

/* Some have landed; every other failure forgets the rest. */
static void fail_flush(struct kgt_sim *sim)
{
    size_t unit;

    for (unit = 0; unit * sim->unit < sim->size; unit++)
        if (sim->state[unit] == KGT_SIM_UNDER_WAY) {
            if (chosen(sim->failures, unit))
                land(sim, unit);
            else if (sim->failures % 2)
                sim->state[unit] = KGT_SIM_FORGOTTEN;
        }
}

int kgt_sim_flush(struct kgt_sim *sim)
{
    int error = kgt_sim_begin_flush(sim);

    return error ? error : flush_some(sim, sim->size) ? 0 : KGT_SIM_NO_POWER;
}

int kgt_sim_begin_flush(struct kgt_sim *sim)
{
    int error = enter(sim);

    if (error == KGT_SIM_FAILED)
        fail_flush(sim);
    sim->flushed = 0;
    sim->flushing = !error;
    return error;
}

bool kgt_sim_flushes(struct kgt_sim *sim)
{
    if (sim->flushing)
        flush_some(sim, AT_A_TIME);
    return sim->flushing && !sim->off;
}

int kgt_sim_drop(struct kgt_sim *sim)
{
    int error = enter(sim);

    if (!error) {
        memcpy(sim->shown, sim->lasting, sim->size);
        memset(sim->state, KGT_SIM_KEPT, sim->size / sim->unit);
        sim->flushing = false;
    }
    return error;
}

/* ---- a serial FRAM ---- */

static int write_chip(struct kgt_sim *sim, size_t at, const uint8_t *out, size_t size)
{
    size_t i;

    for (i = 0; i < size; i++) {
        sim->shown[at + i] = out[i];
        if (!land(sim, at + i)) {
            sim->shown[at + i] = sim->lasting[at + i];
            return KGT_SIM_NO_POWER;
        }
    }
    return 0;
}

/* A transfer that fails has come to its middle. */
int kgt_sim_transfer(void *bus, const uint8_t *command, size_t command_size, const uint8_t *out, uint8_t *in, size_t size)
{
    struct kgt_sim *sim = (struct kgt_sim *)bus;
    int error = enter(sim), broken = 0;
    size_t at = 0, i, count = error ? size / 2 : size;

    if (sim->off)
        return error ? error : KGT_SIM_NO_POWER;
    if (command_size == 1) {
        sim->write_enabled = !error && command[0] == WRITE_ENABLE;
        return error;
    }
    for (i = 1; i < command_size; i++)
        at = at << 8 | command[i];
    if (sim->unit != 1 || (command_size != 3 && command_size != 4) || at > sim->size || size > sim->size - at)
        return KGT_SIM_FAILED;
    if (command[0] == READ && in)
        memcpy(in, sim->lasting + at, count);
    if (command[0] == WRITE && out && sim->write_enabled)
        broken = write_chip(sim, at, out, count);
    sim->write_enabled = false;
    return broken ? broken : error;
}

/* ---- for the kit ---- */

static void clear(void *context)
{
    struct kgt_sim *sim = (struct kgt_sim *)context;

    kgt_sim_init(sim, sim->lasting, sim->size, sim->unit);
}

static void arm(void *context, uint64_t landings, uint64_t failing_call)
{
    struct kgt_sim *sim = (struct kgt_sim *)context;

    sim->power = landings;
    sim->failing = failing_call;
    sim->landings = sim->calls = 0;
}

static void count(void *context, uint64_t *landings, uint64_t *calls)
{
    struct kgt_sim *sim = (struct kgt_sim *)context;

    *landings = sim->landings;
    *calls = sim->calls;
}

static bool has_power(void *context)
{
    return !((struct kgt_sim *)context)->off;
}

static size_t cut(void *context, enum kgt_choice choice, uint64_t seed)
{
    struct kgt_sim *sim = (struct kgt_sim *)context;
    size_t unit, open = 0;

    sim->off = false;
    sim->power = UINT64_MAX;
    sim->failing = 0;
    for (unit = 0; unit * sim->unit < sim->size; unit++)
        if (sim->state[unit] == KGT_SIM_UNDER_WAY) {
            open++;
            if (choice == KGT_ALL_ARRIVE || (choice == KGT_SOME_ARRIVE && chosen(seed, unit)))
                land(sim, unit);
        }
    memcpy(sim->shown, sim->lasting, sim->size);
    memset(sim->state, KGT_SIM_KEPT, sim->size / sim->unit);
    sim->flushing = sim->write_enabled = false;
    sim->landings = sim->calls = 0;
    return open;
}

static void wait(void *context)
{
    struct kgt_sim *sim = (struct kgt_sim *)context;

    if (sim->flushing)
        flush_some(sim, sim->size);
}

struct kgt_medium kgt_sim_medium(struct kgt_sim *sim)
{
    struct kgt_medium medium;

    medium.context = sim;
    medium.clear = clear;
    medium.arm = arm;
    medium.count = count;
    medium.has_power = has_power;
    medium.cut = cut;
    medium.wait = wait;
    return medium;
}
