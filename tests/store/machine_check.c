/*
 * The C object beside the proved machine (crates/object_machine): over random histories with failures of the driver and reopenings, on words and on
 * blocks, both make the same driver calls with the same bytes and give the same answers.
 */
/* Clauses: [S-75, S-76, S-88] */
#include <stdio.h>
#include <stdlib.h>
#include <string.h>

#include "kagutin_store.h"

enum { GROUPS = 6, HOMES = 14, HISTORIES = 2000, STEPS = 120, CONTROL = 256 };
enum { DONE, WRITE, FENCE, LOAD, PASS };

struct turn {
    uint64_t kind, area, offset, size, source, from, code, figure;
};

#define LENT(type) type *log, size_t log_size, type *area, size_t area_size
struct turn kagutin_machine(uint8_t *control, size_t size, uint64_t landing, uint64_t room, uint64_t lists);
struct turn kagutin_ask_open(uint8_t *control, size_t size);
struct turn kagutin_ask_reserve(uint8_t *control, size_t size, uint64_t writer, uint64_t places);
struct turn kagutin_ask_store(uint8_t *control, size_t size, uint64_t writer, uint64_t home);
struct turn kagutin_ask_commit(uint8_t *control, size_t size, uint64_t writer);
struct turn kagutin_ask_sync(uint8_t *control, size_t size);
struct turn kagutin_ask_maintain(uint8_t *control, size_t size, uint64_t most);
struct turn kagutin_ask_begin(const uint8_t *control, size_t size, LENT(const uint8_t), uint8_t *state, size_t state_size,
                              uint64_t writer);
struct turn kagutin_ask_abort(const uint8_t *control, size_t size, LENT(const uint8_t), uint8_t *state, size_t state_size,
                              uint64_t writer);
struct turn kagutin_ask_read(const uint8_t *control, size_t size, LENT(const uint8_t), const uint8_t *state, size_t state_size,
                             const uint8_t *newest, size_t newest_size, uint8_t *block, size_t block_size, uint64_t writer,
                             uint64_t home);
struct turn kagutin_next(uint8_t *control, size_t size, LENT(uint8_t), uint8_t *state, size_t state_size, uint8_t *newest,
                         size_t newest_size, const uint8_t *block, size_t block_size, uint8_t *batch, size_t batch_size,
                         uint64_t result);

/* One medium for each, and a running hash of all that was asked of it. */
struct medium {
    uint8_t log[KGT_LOG_SIZE(GROUPS)], area[KGT_HOMES_SIZE(HOMES)];
    uint64_t hash, left; /* left: calls until one fails; 0: none does */
};

static struct medium media[2];
static uint64_t random_state = 88172645463325252u;
static unsigned long calls, headers; /* of the driver; writes of a whole header, as a trim has */

static uint64_t random_below(uint64_t limit)
{
    random_state ^= random_state << 13;
    random_state ^= random_state >> 7;
    random_state ^= random_state << 17;
    return random_state % limit;
}

static void note(struct medium *m, const void *bytes, size_t size)
{
    const uint8_t *b = bytes;

    while (size-- > 0)
        m->hash = (m->hash ^ *b++) * 1099511628211u;
}

static int asked(struct medium *m, uint64_t kind, uint64_t area, uint64_t at, uint64_t size)
{
    uint64_t call[4];

    call[0] = kind, call[1] = area, call[2] = at, call[3] = size;
    note(m, call, sizeof call);
    calls++;
    headers += kind == WRITE && area == 0 && at == 0;
    return m->left > 0 && --m->left == 0 ? -7 : 0;
}

static uint8_t *bytes_of(struct medium *m, uint64_t area)
{
    return area == 0 ? m->log : m->area;
}

static int load(void *context, enum kgt_area area, size_t at, uint8_t *bytes, size_t size)
{
    struct medium *m = context;
    int error = asked(m, LOAD, area, at, size);

    if (!error)
        memcpy(bytes, bytes_of(m, area) + at, size);
    return error;
}

static int write(void *context, enum kgt_area area, size_t at, const uint8_t *bytes, size_t size)
{
    struct medium *m = context;
    int error = asked(m, WRITE, area, at, size);

    note(m, bytes, size);
    memcpy(bytes_of(m, area) + at, bytes, size);
    return error;
}

static int fence(void *context)
{
    return asked(context, FENCE, 0, 0, 0);
}

/* ---- the machine ---- */

static uint8_t control[CONTROL], log_copy[KGT_LOG_SIZE(GROUPS)], area_copy[KGT_HOMES_SIZE(HOMES)], state[KAGUTIN_STATE_SIZE],
    newest[KGT_NEWEST_SIZE(HOMES)], batch[KGT_BATCH_SIZE(GROUPS, HOMES)], block[KAGUTIN_BLOCK_SIZE];
static unsigned long turns;

static struct turn carry_out(struct turn t)
{
    while (t.kind != DONE) {
        const uint8_t *bytes = (t.source == 0 ? batch : log_copy) + t.from;
        int error = 0;

        if (t.kind == WRITE)
            error = write(&media[1], (enum kgt_area)t.area, t.offset, bytes, t.size);
        else if (t.kind == FENCE)
            error = fence(&media[1]);
        else if (t.kind == LOAD)
            error = load(&media[1], (enum kgt_area)t.area, t.offset, t.area == 0 ? log_copy : area_copy, t.size);
        t = kagutin_next(control, sizeof control, log_copy, sizeof log_copy, area_copy, sizeof area_copy, state, sizeof state,
                         newest, sizeof newest, block, sizeof block, batch, sizeof batch, (uint64_t)(int64_t)error);
        turns++;
    }
    return t;
}

#define AREAS log_copy, sizeof log_copy, area_copy, sizeof area_copy

/* ---- both ---- */

static struct kagutin object;
static uint8_t memory[KGT_MEMORY_SIZE(GROUPS, HOMES)];
static unsigned long operations, answers[128];

static uint64_t told(struct kgt_reply r)
{
    return r.code == KAGUTIN_FULL || r.code == KAGUTIN_NO_PLACES ? r.holder
        : r.code == KGT_DRIVER_FAILED                            ? (uint64_t)(int64_t)r.error
                                                                 : 0;
}

static void step(unsigned long history)
{
    uint64_t writer = random_below(4), home = random_below(HOMES), n = random_below(7 * GROUPS + 2), most = random_below(4);
    uint64_t kind = random_below(24), code = 0, figure = 0;
    uint8_t shown[2][KAGUTIN_BLOCK_SIZE];
    struct turn t;

    if (random_below(400) == 0)
        media[0].left = media[1].left = 1 + random_below(12);
    if (object.condition != KGT_IS_OPEN && random_below(3) == 0)
        kind = 23;
    memset(shown, 0, sizeof shown);
    memset(block, (int)random_below(256), sizeof block);
    if (kind < 4) {
        struct kgt_reply r = kgt_begin(&object, writer);

        code = r.code, figure = told(r);
        t = kagutin_ask_begin(control, sizeof control, AREAS, state, sizeof state, writer);
    } else if (kind == 4) {
        struct kgt_reply r = kgt_reserve(&object, writer, n);

        code = r.code, figure = told(r);
        t = carry_out(kagutin_ask_reserve(control, sizeof control, writer, n));
    } else if (kind == 5) {
        struct kgt_reply r = kgt_abort(&object, writer);

        code = r.code, figure = told(r);
        t = kagutin_ask_abort(control, sizeof control, AREAS, state, sizeof state, writer);
    } else if (kind < 14) {
        struct kgt_reply r = kgt_store(&object, writer, home, block);

        code = r.code, figure = told(r);
        t = carry_out(kagutin_ask_store(control, sizeof control, writer, home));
    } else if (kind < 18) {
        struct kgt_ticket r = kgt_commit(&object, writer);

        code = r.code;
        figure = code == 0              ? r.ticket
            : code == KAGUTIN_FULL      ? r.holder
            : code == KGT_DRIVER_FAILED ? (uint64_t)(int64_t)r.error
                                        : 0;
        t = carry_out(kagutin_ask_commit(control, sizeof control, writer));
    } else if (kind < 20) {
        struct kgt_reply r = kgt_read(&object, writer, home, shown[0]);

        code = r.code, figure = told(r);
        t = kagutin_ask_read(control, sizeof control, AREAS, state, sizeof state, newest, sizeof newest, shown[1],
                             sizeof shown[1], writer, home);
    } else if (kind == 20) {
        struct kgt_mark r = kgt_sync(&object);

        code = r.code;
        figure = code == 0 ? r.mark : code == KGT_DRIVER_FAILED ? (uint64_t)(int64_t)r.error : 0;
        t = carry_out(kagutin_ask_sync(control, sizeof control));
    } else if (kind < 23) {
        struct kgt_progress r = kgt_maintain(&object, most);

        code = r.code;
        figure = code == 0 ? r.more : code == KGT_DRIVER_FAILED ? (uint64_t)(int64_t)r.error : 0;
        t = carry_out(kagutin_ask_maintain(control, sizeof control, most));
    } else if (object.condition == KGT_IS_OPEN && random_below(8) != 0) {
        return;
    } else {
        struct kgt_opened r = kgt_open(&object);

        code = r.code;
        figure = code == 0 ? r.commits : code == KGT_DRIVER_FAILED ? (uint64_t)(int64_t)r.error : 0;
        t = carry_out(kagutin_ask_open(control, sizeof control));
    }
    operations++;
    answers[code & 127]++;
    if (t.code != code || t.figure != figure || media[0].hash != media[1].hash || memcmp(shown[0], shown[1], sizeof shown[0]) != 0
        || memcmp(media[0].log, media[1].log, sizeof media[0].log) != 0
        || memcmp(media[0].area, media[1].area, sizeof media[0].area) != 0) {
        printf("machine_check: wrong: history %lu, kind %lu: object %lu %lu, machine %lu %lu\n", history, (unsigned long)kind,
               (unsigned long)code, (unsigned long)figure, (unsigned long)t.code, (unsigned long)t.figure);
        exit(1);
    }
}

int main(int argc, char **argv)
{
    unsigned long history, i, histories = argc > 1 ? strtoul(argv[1], NULL, 10) : HISTORIES;
    static uint8_t scratch[KGT_FORMAT_SIZE(GROUPS, HOMES)];

    for (history = 0; history < histories; history++) {
        struct kgt_driver driver;
        uint64_t room = random_below(5) == 0, lists = random_below(2);

        memset(media, 0, sizeof media);
        driver.context = &media[0];
        driver.load = load, driver.write = write, driver.fence = fence;
        driver.landing = random_below(2) == 0 ? KGT_LANDS_WORDS : KGT_LANDS_BLOCKS;
        kgt_init(&object, memory, sizeof memory, GROUPS, HOMES, driver);
        kgt_set_room(&object, room ? KGT_ROOM_BY_MAINTAIN : KGT_ROOM_AT_ONCE);
        if (lists)
            kgt_allow_list_stores(&object);
        if (kgt_format(&object, scratch, sizeof scratch).code != KAGUTIN_DONE)
            return 1;
        media[1] = media[0];
        kagutin_machine(control, sizeof control, driver.landing, room, lists);
        for (i = 0; i < STEPS; i++)
            step(history);
    }
    printf("machine_check: %lu histories, %lu operations, %lu turns, %lu driver calls, %lu headers; answers", histories,
           operations, turns, calls, headers);
    for (i = 0; i < 128; i++)
        if (answers[i] > 0)
            printf(" %lu:%lu", i, answers[i]);
    printf("\n");
    return 0;
}
