/* The drivers of zephyr/kagutin_zephyr.c on stub devices: sizes, the lock, and power gone after every byte. */
#include <errno.h>
#include <stdio.h>
#include <string.h>
#include <zephyr/device.h>
#include <zephyr/kernel.h>

#include "kagutin_zephyr.h"

enum { GROUPS = 4, HOMES = 8, BASE = 24, WRITER = 2, ROUNDS = 6 };
#define SIZE (KGT_LOG_SIZE(GROUPS) + KGT_HOMES_SIZE(HOMES))

static uint8_t memory[KGT_MEMORY_SIZE(GROUPS, HOMES)], scratch[KGT_FORMAT_SIZE(GROUPS, HOMES)], lasting[BASE + SIZE],
    begun[sizeof lasting];
static struct device device = {true, lasting, sizeof lasting, false, false, 0};
static struct kagutin store;
static struct kgt_zephyr zephyr;
static struct k_mutex mutex;
static uint8_t waits[KAGUTIN_GROUP_SIZE];
static off_t waits_at;
static size_t waiting;
static unsigned failed;

typedef int (*init_function)(struct kgt_zephyr *zephyr, const struct device *device, uint32_t base, size_t groups, size_t homes);

static void check(bool right, const char *what, unsigned long at)
{
    if (!right && failed++ < 10)
        printf("wrong: %s, power gone after %lu bytes\n", what, at);
}

int stub_read(const struct device *dev, off_t offset, void *data, size_t size)
{
    check((size_t)offset + size <= dev->size, "read inside the device", dev->left);
    memcpy(data, dev->bytes + offset, size);
    return 0;
}

static int land(const struct device *dev, off_t offset, const uint8_t *bytes, size_t size)
{
    size_t i, at;

    for (i = 0; i < size; i++) {
        if (device.left == 0)
            return -EIO;
        device.left--;
        at = dev->falling ? size - 1 - i : i;
        dev->bytes[(size_t)offset + at] = bytes[at];
    }
    return 0;
}

/* A late device says that it has written while the bytes still wait for the next write. */
int stub_write(const struct device *dev, off_t offset, const void *data, size_t size)
{
    int error;

    check(offset >= BASE && (size_t)offset + size <= dev->size, "written inside the image", dev->left);
    if (!dev->late)
        return land(dev, offset, (const uint8_t *)data, size);
    error = land(dev, waits_at, waits, waiting);
    waits_at = offset;
    waiting = size;
    memcpy(waits, data, size);
    return error;
}

static bool opens(init_function init)
{
    return init(&zephyr, &device, BASE, GROUPS, HOMES) == 0
        && kgt_init(&store, memory, sizeof memory, GROUPS, HOMES, kgt_zephyr_driver(&zephyr)).code == KAGUTIN_DONE
        && kgt_set_lock(&store, kgt_zephyr_lock, kgt_zephyr_unlock, &mutex).code == KAGUTIN_DONE
        && kgt_open(&store).code == KAGUTIN_DONE;
}

/* Two homes get the same value, again and again; the number of times that were durable. */
static unsigned keep_pairs(void)
{
    uint8_t block[KAGUTIN_BLOCK_SIZE];
    unsigned i;

    for (i = 1; i <= ROUNDS; i++) {
        memset(block, (int)i, sizeof block);
        if (kgt_begin(&store, WRITER).code != KAGUTIN_DONE || kgt_store(&store, WRITER, 1, block).code != KAGUTIN_DONE
            || kgt_store(&store, WRITER, 6, block).code != KAGUTIN_DONE || kgt_commit_sync(&store, WRITER).code != KAGUTIN_DONE)
            break;
        kgt_maintain(&store, 0);
    }
    return i - 1;
}

/* Power gone after so many bytes; false once that is later than all of it. */
static bool cut_after(init_function init, unsigned long bytes)
{
    uint8_t one[KAGUTIN_BLOCK_SIZE], six[KAGUTIN_BLOCK_SIZE];
    unsigned durable = 0;
    bool whole;

    memcpy(lasting, begun, sizeof lasting);
    device.left = bytes;
    if (opens(init))
        durable = keep_pairs();
    whole = device.left > 0;
    waiting = 0;
    device.left = (unsigned long)-1;
    check(opens(init), "opens again", bytes);
    check(kgt_read(&store, 0, 1, one).code == KAGUTIN_DONE && kgt_read(&store, 0, 6, six).code == KAGUTIN_DONE, "reads", bytes);
    check(memcmp(one, six, sizeof one) == 0, "both homes of one moment", bytes);
    check(one[0] >= durable && one[0] <= durable + 1, "what was durable is there", bytes);
    return !whole;
}

static void test_sizes(init_function init)
{
    device.ready = false;
    check(init(&zephyr, &device, BASE, GROUPS, HOMES) == -ENODEV, "a device that is not ready", 0);
    device.ready = true;
    check(init(&zephyr, NULL, BASE, GROUPS, HOMES) == -ENODEV, "no device", 0);
    check(init(&zephyr, &device, BASE + 1, GROUPS, HOMES) == -ENOSPC, "too small by a byte", 0);
    check(init(&zephyr, &device, BASE, GROUPS, HOMES + 1) == -ENOSPC, "too small by a home", 0);
    check(init(&zephyr, &device, UINT32_MAX, GROUPS, HOMES) == -ENOSPC, "a base far outside", 0);
}

static void test_device(const char *name, init_function init, bool falling, bool late)
{
    unsigned long bytes = 0, i;

    test_sizes(init);
    memset(lasting, 0xa5, sizeof lasting);
    device.falling = falling;
    device.left = (unsigned long)-1;
    check(!opens(init), "no store there", 0);
    check(kgt_format(&store, scratch, sizeof scratch).code == KAGUTIN_DONE && opens(init), "formatted", 0);
    for (i = 0; i < 62; i++) /* group numbers of two bytes are near */
        check(opens(init), "opens", i);
    memcpy(begun, lasting, sizeof lasting);
    device.late = late;
    while (cut_after(init, bytes))
        bytes++;
    check(lasting[BASE - 1] == 0xa5, "what lies before the image stays", bytes);
    printf("%s: %lu cuts, %u wrong\n", name, bytes, failed);
}

int main(int count, char **words)
{
    (void)words;
    test_device("retained memory, rising", kgt_zephyr_retained_init, false, false);
    test_device("retained memory, a memcpy that falls", kgt_zephyr_retained_init, true, false);
    test_device("FRAM behind the EEPROM interface", kgt_zephyr_eeprom_init, false, false);
    if (count > 1) /* the test of the test */
        test_device("a chip that says too early that it is done", kgt_zephyr_eeprom_init, false, true);
    check(mutex.taken > 0 && mutex.taken == mutex.given, "the lock is given back", 0);
    return failed != 0;
}
