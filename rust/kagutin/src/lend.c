/* What src/ffi.rs needs of the C side: an object that moves with its store, and the sizes and offsets that the compiler chose. */
#include <stddef.h>

#include "kagutin_all.h"

#define OBJECT_SIZE 256 /* Object of src/ffi.rs */

typedef char object_fits[sizeof(struct kagutin) <= OBJECT_SIZE ? 1 : -1];

void kagutin_rust_lend(struct kagutin *store, void *context, uint8_t *memory);
bool kagutin_rust_lent_right(void);
extern const size_t kagutin_rust_layout[];

/* Memory and driver lie elsewhere since the last call: the parts of the memory are those that kgt_init makes. */
void kagutin_rust_lend(struct kagutin *store, void *context, uint8_t *memory)
{
    store->runner.driver.context = context;
    store->log = memory;
    store->area = store->log + store->log_size;
    store->state = store->area + store->area_size;
    store->newest = store->state + KAGUTIN_STATE_SIZE;
    store->batch = store->newest + store->newest_size;
    store->runner.log = store->log;
    store->runner.state = store->state;
}

static int none(void *context)
{
    (void)context;
    return 0;
}

static int no_load(void *context, enum kgt_area area, size_t at, uint8_t *bytes, size_t size)
{
    (void)area, (void)at, (void)bytes, (void)size;
    return none(context);
}

static int no_write(void *context, enum kgt_area area, size_t at, const uint8_t *bytes, size_t size)
{
    (void)area, (void)at, (void)bytes, (void)size;
    return none(context);
}

/* For the test: kgt_init makes the same parts. */
bool kagutin_rust_lent_right(void)
{
    static uint8_t memory[KGT_MEMORY_SIZE(5, 9)], other[KGT_MEMORY_SIZE(5, 9)];
    struct kgt_driver driver = {NULL, no_load, no_write, none, KGT_LANDS_WORDS};
    struct kagutin made, lent;

    driver.context = other;
    kgt_init(&made, other, sizeof other, 5, 9, driver);
    driver.context = memory;
    kgt_init(&lent, memory, sizeof memory, 5, 9, driver);
    kagutin_rust_lend(&lent, other, other);
    return made.runner.driver.context == lent.runner.driver.context && made.log == lent.log && made.area == lent.area
        && made.state == lent.state && made.newest == lent.newest && made.batch == lent.batch
        && made.runner.log == lent.runner.log && made.runner.state == lent.runner.state;
}

/* As `layout` of src/ffi.rs lists them. */
const size_t kagutin_rust_layout[] = {
    sizeof(struct kgt_driver),
    offsetof(struct kgt_driver, load),
    offsetof(struct kgt_driver, landing),
    sizeof(enum kgt_area),
    sizeof(enum kgt_landing),
    sizeof(enum kgt_room),
    sizeof(enum kgt_panel),
    sizeof(struct kgt_reply),
    offsetof(struct kgt_reply, error),
    sizeof(struct kgt_opened),
    sizeof(struct kgt_ticket),
    offsetof(struct kgt_ticket, holder),
    offsetof(struct kgt_ticket, error),
    sizeof(struct kgt_mark),
    sizeof(struct kgt_progress),
    offsetof(struct kgt_progress, more),
    offsetof(struct kgt_progress, error),
    sizeof(struct kagutin_places),
    offsetof(struct kagutin_places, first),
    sizeof(struct kgt_rights),
    sizeof(struct kgt_table),
    offsetof(struct kgt_table, mm),
    sizeof(struct kgt_band),
    offsetof(struct kgt_band, pumps),
    sizeof(struct kgt_hours),
    sizeof(struct kgt_services),
    sizeof(struct kgt_alarm),
    offsetof(struct kgt_alarm, shown),
    offsetof(struct kgt_alarm, identity),
    offsetof(struct kgt_alarm, error),
    KGT_MEMORY_SIZE(4, 1),
    KGT_MEMORY_SIZE(16, 32),
    KGT_MEMORY_SIZE(4, 65535),
    KGT_MEMORY_SIZE(1024, 65535),
    KGT_FORMAT_SIZE(4, 1),
    KGT_FORMAT_SIZE(1024, 65535),
};
