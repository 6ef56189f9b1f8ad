/* Zephyr's devices as the chip of kagutin_fram.h: what that driver sends over a bus becomes a read or a write of the device. */
#include "kagutin_zephyr.h"

#include <errno.h>
#include <sys/types.h>
#include <zephyr/device.h>
#include <zephyr/kernel.h>

#ifdef CONFIG_KAGUTIN_RETAINED_MEM
#include <zephyr/drivers/retained_mem.h>
#endif
#ifdef CONFIG_KAGUTIN_EEPROM
#include <zephyr/drivers/eeprom.h>
#endif

#define MOST_BYTES ((uint32_t)1 << 24) /* that an address of three bytes reaches */

enum { READ = 0x03, ADDRESS_BYTES = 3, SHORT = 32 /* first words of groups, and copies of the header */ };

static off_t address(const uint8_t *command)
{
    return (off_t)((uint32_t)command[1] << 16 | (uint32_t)command[2] << 8 | command[3]);
}

/* A write enable, which a device behind Zephyr does not need. */
static bool is_enable(size_t command_size)
{
    return command_size != 1 + ADDRESS_BYTES;
}

static int init(struct kgt_zephyr *zephyr, const struct device *device, uint32_t base, size_t groups, size_t homes, uint64_t size,
                int (*transfer)(void *bus, const uint8_t *command, size_t command_size, const uint8_t *out, uint8_t *in,
                                size_t size))
{
    if (size > MOST_BYTES)
        size = MOST_BYTES;
    if ((uint64_t)base + KGT_LOG_SIZE(groups) + KGT_HOMES_SIZE(homes) > size)
        return -ENOSPC;
    zephyr->device = device;
    kgt_fram_init(&zephyr->fram, groups, base, ADDRESS_BYTES, transfer, zephyr);
    return 0;
}

#ifdef CONFIG_KAGUTIN_RETAINED_MEM
static int retained_write(const struct device *device, off_t at, const uint8_t *bytes, size_t size)
{
    int error = 0;
    size_t i;

    if (size > SHORT)
        return retained_mem_write(device, at, bytes, size);
    for (i = 0; i < size && !error; i++)
        error = retained_mem_write(device, at + (off_t)i, bytes + i, 1);
    return error;
}

static int retained_transfer(void *bus, const uint8_t *command, size_t command_size, const uint8_t *out, uint8_t *in, size_t size)
{
    struct kgt_zephyr *zephyr = (struct kgt_zephyr *)bus;

    if (is_enable(command_size))
        return 0;
    if (command[0] == READ)
        return retained_mem_read(zephyr->device, address(command), in, size);
    return retained_write(zephyr->device, address(command), out, size);
}

int kgt_zephyr_retained_init(struct kgt_zephyr *zephyr, const struct device *device, uint32_t base, size_t groups, size_t homes)
{
    ssize_t size;

    if (!device_is_ready(device))
        return -ENODEV;
    size = retained_mem_size(device);
    return init(zephyr, device, base, groups, homes, size < 0 ? 0 : (uint64_t)size, retained_transfer);
}
#endif

#ifdef CONFIG_KAGUTIN_EEPROM
static int eeprom_transfer(void *bus, const uint8_t *command, size_t command_size, const uint8_t *out, uint8_t *in, size_t size)
{
    struct kgt_zephyr *zephyr = (struct kgt_zephyr *)bus;

    if (is_enable(command_size))
        return 0;
    if (command[0] == READ)
        return eeprom_read(zephyr->device, address(command), in, size);
    return eeprom_write(zephyr->device, address(command), out, size);
}

int kgt_zephyr_eeprom_init(struct kgt_zephyr *zephyr, const struct device *device, uint32_t base, size_t groups, size_t homes)
{
    if (!device_is_ready(device))
        return -ENODEV;
    return init(zephyr, device, base, groups, homes, eeprom_get_size(device), eeprom_transfer);
}
#endif

struct kgt_driver kgt_zephyr_driver(struct kgt_zephyr *zephyr)
{
    return kgt_fram_driver(&zephyr->fram);
}

int kgt_zephyr_lock(void *mutex)
{
    return k_mutex_lock((struct k_mutex *)mutex, K_FOREVER);
}

void kgt_zephyr_unlock(void *mutex)
{
    (void)k_mutex_unlock((struct k_mutex *)mutex);
}
