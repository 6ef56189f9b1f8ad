/*
 * Deepest stack of each call of the store object in bytes, with a full log and
 * places promised, where the call makes room itself and where that is left to
 * the task that maintains. On this machine and, with port/replay/say_board.c, on
 * a bare Cortex-M board. Status 1 if a writer's call passes its bound.
 */
#include <string.h>

#include "kagutin_rights.h"
#include "kagutin_units.h"
#include "say.h"

enum { MOST_GROUPS = 256, HOMES = 64, FREE = 32 /* behind the units */, PAINT = 0xa5, PAINTED = 40960, WRITER = 4, OTHER = 5 };
#define MEMORY KGT_MEMORY_SIZE(MOST_GROUPS, HOMES)

static uint8_t memory[MEMORY], kept_memory[MEMORY], scratch[KGT_FORMAT_SIZE(MOST_GROUPS, HOMES)];
static uint8_t areas[2][KGT_LOG_SIZE(MOST_GROUPS)]; /* by enum kgt_area */
static uint8_t block[KAGUTIN_BLOCK_SIZE];
static struct kagutin store, kept_store;
static struct kgt_rights list;
static struct kagutin_places places;
static volatile uint64_t code;

static int load(void *context, enum kgt_area area, size_t at, uint8_t *bytes, size_t size)
{
    (void)context;
    memcpy(bytes, areas[area] + at, size);
    return 0;
}

static int write_bytes(void *context, enum kgt_area area, size_t at, const uint8_t *bytes, size_t size)
{
    (void)context;
    memcpy(areas[area] + at, bytes, size);
    return 0;
}

static int fence(void *context)
{
    (void)context;
    return 0;
}

#define CALL(name, reply)                                                                                                        \
    static __attribute__((noinline)) void name(void)                                                                             \
    {                                                                                                                            \
        code = (reply).code;                                                                                                     \
    }

static const uint8_t rows[KAGUTIN_BAND_SIZE] = {0, 0, 0x0f, 0x27, 2};

CALL(nothing, places)
CALL(begin, kgt_begin(&store, OTHER))
CALL(reserve, kgt_reserve(&store, OTHER, 20))
CALL(store_block, kgt_store(&store, WRITER, 2, block))
CALL(commit, kgt_commit(&store, WRITER))
CALL(commit_sync, kgt_commit_sync(&store, WRITER))
CALL(abort_it, kgt_abort(&store, WRITER))
CALL(read_block, kgt_read(&store, WRITER, 3, block))
CALL(sync_log, kgt_sync(&store))
CALL(set_rights, kgt_set_rights(&store, &list))
CALL(get_rights, kgt_get_rights(&store, OTHER, &list))
CALL(bands_set, kgt_bands_set(&store, OTHER, rows, sizeof rows))
CALL(bands_look_up, kgt_bands_look_up(&store, OTHER, 500))
CALL(pump_start, kgt_pump_start(&store, OTHER, 0, 1))
CALL(pump_stop, kgt_pump_stop(&store, OTHER, 1, 1))
CALL(pump_hours, kgt_pump_hours(&store, OTHER, 0))
CALL(pump_services, kgt_pump_services(&store, OTHER, 0, 60))
CALL(alarm_arrive, kgt_alarm_arrive(&store, OTHER, 9, 3, 1))
CALL(alarm_clear, kgt_alarm_clear(&store, OTHER, 8))
CALL(alarm_gravest, kgt_alarm_gravest(&store, OTHER))
CALL(usage, kgt_usage(&store, &places))
CALL(maintain, kgt_maintain(&store, 4))
CALL(open_store, kgt_open(&store))

/* Writers' calls first; then the calls of the task that maintains. */
static const struct {
    const char *name;
    void (*run)(void);
} calls[] = {{"begin", begin},
             {"reserve", reserve},
             {"store", store_block},
             {"commit", commit},
             {"commit_sync", commit_sync},
             {"abort", abort_it},
             {"read", read_block},
             {"sync", sync_log},
             {"set_rights", set_rights},
             {"get_rights", get_rights},
             {"bands_set", bands_set},
             {"bands_look_up", bands_look_up},
             {"pump_start", pump_start},
             {"pump_stop", pump_stop},
             {"pump_hours", pump_hours},
             {"pump_services", pump_services},
             {"alarm_arrive", alarm_arrive},
             {"alarm_clear", alarm_clear},
             {"alarm_gravest", alarm_gravest},
             {"usage", usage},
             {"maintain", maintain},
             {"open", open_store},
             {"", nothing}};
enum { CALLS = sizeof calls / sizeof *calls, NOTHING = CALLS - 1, OPEN = NOTHING - 1, MAINTAIN = OPEN - 1, USAGE = MAINTAIN - 1 };

static unsigned long deepest[CALLS];

/* Paints what lies below the stack pointer, and looks how far down the call has been. */
static __attribute__((noinline)) void measure(unsigned which)
{
    volatile uint8_t *below;
    unsigned long n;

#if defined(__x86_64__)
    __asm__ volatile("mov %%rsp, %0" : "=r"(below));
#else
    __asm__ volatile("mov %0, sp" : "=r"(below));
#endif
    below -= PAINTED;
    for (n = 0; n < PAINTED; n++)
        below[n] = PAINT;
    calls[which].run();
    for (n = 0; n < PAINTED && below[n] == PAINT; n++)
        ;
    if (PAINTED - n > deepest[which])
        deepest[which] = PAINTED - n;
}

static int commit_home(uint64_t home)
{
    return kgt_begin(&store, 0).code == 0 && kgt_store(&store, 0, home, block).code == 0 && kgt_commit(&store, 0).code == 0;
}

/* A store whose log has so many places left, with a writer that holds a block; promised: they are all another's; else fenced. */
static int prepare(size_t groups, enum kgt_room room, uint64_t left, int promised)
{
    static const struct kgt_driver driver = {NULL, load, write_bytes, fence, KGT_LANDS_WORDS};
    uint64_t home = FREE;

    if (kgt_init(&store, memory, sizeof memory, groups, HOMES, driver).code || kgt_format(&store, scratch, sizeof scratch).code
        || kgt_open(&store).code)
        return 0;
    if (kgt_set_room(&store, room).code || kgt_begin(&store, WRITER).code || kgt_store(&store, WRITER, 1, block).code)
        return 0;
    if (kgt_alarm_arrive(&store, 0, 8, 2, 1).code || kgt_pump_start(&store, 0, 1, 1).code
        || kgt_bands_set(&store, 0, rows, sizeof rows).code)
        return 0;
    do {
        if (!commit_home(home) || kgt_usage(&store, &places).code)
            return 0;
        home = home + 1 < HOMES ? home + 1 : FREE;
    } while (places.free > left);
    if (promised ? kgt_reserve(&store, 6, left).code : kgt_sync(&store).code)
        return 0;
    kept_store = store;
    memcpy(kept_memory, memory, sizeof memory);
    return 1;
}

/* All calls from each of the states, each from a fresh copy of it: a full log, one with some room, one with places promised. */
static int measure_all(size_t groups, enum kgt_room room)
{
    const struct {
        uint64_t left;
        int promised;
    } states[] = {{0, 0}, {groups < 16 ? 14 : 100, 0}, {11, 1}};
    unsigned which, i;

    for (i = 0; i < sizeof states / sizeof *states; i++) {
        if (!prepare(groups, room, states[i].left, states[i].promised))
            return 0;
        for (which = 0; which < CALLS; which++) {
            store = kept_store;
            memcpy(memory, kept_memory, sizeof memory);
            measure(which);
        }
    }
    return 1;
}

/* Prints a line and returns the most that a call which is a writer's took. */
static unsigned long show(size_t groups, enum kgt_room room)
{
    unsigned long most = 0, depth;
    unsigned which;

    memset(deepest, 0, sizeof deepest);
    say("G ");
    say_number((unsigned long)groups);
    say(room == KGT_ROOM_AT_ONCE ? ", room made at once:" : ", room left to maintain:");
    if (!measure_all(groups, room)) {
        say(" a call is refused\n");
        return PAINTED;
    }
    for (which = 0; which < NOTHING; which++) {
        depth = deepest[which] - deepest[NOTHING];
        say(" ");
        say(calls[which].name);
        say(" ");
        say_number(depth);
        if (which < USAGE && depth > most)
            most = depth;
    }
    say("\n");
    return most;
}

int main(void)
{
    static const size_t shapes[] = {4, 16, 64, MOST_GROUPS};
    unsigned i;
    int over = 0;

    for (i = 0; i < sizeof shapes / sizeof *shapes; i++) {
        over |= show(shapes[i], KGT_ROOM_AT_ONCE) > (shapes[i] <= 64 ? 6144 : 33792); /* bytes: 6 KiB, 33 KiB, 2.5 KiB */
        over |= show(shapes[i], KGT_ROOM_BY_MAINTAIN) > 2560;
    }
    return over;
}
