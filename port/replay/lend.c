/* The lent memory and the calls on it. */
#include <string.h>

#include "replay.h"

struct lent lent;

const char *const call_names[CALLS] = {KAGUTIN_CALLS(CALL_NAME) "usage"};

void lend(size_t groups, size_t homes, size_t batch_size)
{
    lent.groups = groups;
    lent.homes = homes;
    lent.log_size = kagutin_log_size(groups);
    lent.area_size = kagutin_area_size(homes);
    lent.state_size = sizeof lent.state;
    lent.newest_size = kagutin_newest_size(homes);
    lent.block_size = sizeof lent.block;
    lent.batch_size = batch_size;
    memset(lent.log, 0xcc, lent.log_size);
    memset(lent.area, 0xcc, lent.area_size);
    memset(lent.state, 0xcc, sizeof lent.state);
    memset(lent.newest, 0xcc, lent.newest_size);
    memset(lent.block, 0xcc, sizeof lent.block);
    memset(lent.batch, 0xcc, batch_size);
}

#define AREAS lent.log, lent.log_size, lent.area, lent.area_size
#define STATE lent.state, lent.state_size
#define NEWEST lent.newest, lent.newest_size
#define BLOCK lent.block, lent.block_size
#define BATCH lent.batch, lent.batch_size
#define WRITER writer
#define HOME home
#define PLACES_ASKED home
#define HOMES_ASKED home
#define CASE(constant, name, arguments)                                                                                          \
    case constant: return kagutin_##name arguments;

/* The numbers that usage tells, eight bytes each, the lowest byte first on every machine. */
static struct kagutin_reply tell(struct kagutin_places told)
{
    const uint64_t numbers[] = {told.code, told.live, told.dead, told.free, told.promised, told.holder, told.first};
    struct kagutin_reply reply = {told.code, 0, 0};
    size_t i;

    for (i = 0; i < sizeof numbers; i++)
        lent.block[i] = (uint8_t)(numbers[i / 8] >> 8 * (i % 8));
    return reply;
}

struct kagutin_reply make_call(enum call call, uint64_t writer, uint64_t home)
{
    switch (call) {
        KAGUTIN_CALLS(CASE)
    default: return tell(kagutin_usage(AREAS, STATE));
    }
}

/* Two sums over the bytes, each in 32 bits. */
struct sums {
    uint32_t fnv, times33;
};

static void add(struct sums *sums, const uint8_t *bytes, size_t size)
{
    uint32_t fnv = sums->fnv, times33 = sums->times33;
    size_t i;

    for (i = 0; i < size; i++) {
        fnv = (fnv ^ bytes[i]) * UINT32_C(16777619);
        times33 = times33 * 33u + bytes[i];
    }
    sums->fnv = fnv;
    sums->times33 = times33;
}

struct kagutin_reply play(enum call call, uint64_t writer, uint64_t home)
{
    struct sums sums = {UINT32_C(2166136261), 5381u};
    struct kagutin_reply reply = make_call(call, writer, home);

    add(&sums, lent.log, lent.log_size);
    add(&sums, lent.area, lent.area_size);
    add(&sums, lent.state, sizeof lent.state);
    add(&sums, lent.newest, lent.newest_size);
    add(&sums, lent.block, sizeof lent.block);
    add(&sums, lent.batch, lent.batch_size);
    observe(call, reply, (uint64_t)sums.fnv << 32 | sums.times33);
    return reply;
}
