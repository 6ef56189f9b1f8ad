/*
 * Lasting memory behind Zephyr's drivers, and Zephyr's mutex as the store's lock.
 *
 * CONFIG_KAGUTIN_RETAINED_MEM: a device of zephyr/drivers/retained_mem.h, for
 * instance backup RAM of a battery domain. Short writes go byte by byte, in
 * rising order, so that it needs to keep no more than bytes whole, whatever
 * memcpy the device calls. The RAM must not lie behind a data cache that writes
 * back later. Not the retention subsystem above it: one checksum for all of an
 * area makes every cut inside a write the end of it.
 *
 * CONFIG_KAGUTIN_EEPROM: FRAM that Zephyr has behind zephyr/drivers/eeprom.h, as
 * fujitsu,mb85rcxx and fujitsu,mb85rsxx. Only chips whose bytes are kept as they
 * arrive: a real EEPROM, whose pages a cut may leave in any state, is none.
 *
 * Both are kagutin_fram.h underneath, with its two copies of the header.
 */
#ifndef KAGUTIN_ZEPHYR_H
#define KAGUTIN_ZEPHYR_H

#include "kagutin_fram.h"

#ifdef __cplusplus
extern "C" {
#endif

struct device;

struct kgt_zephyr {
    const struct device *device;
    struct kgt_fram fram;
};

/*
 * An image of this shape, from byte base of the device on. 0, or -ENODEV: the
 * device is not ready; -ENOSPC: the image does not fit.
 */
int kgt_zephyr_retained_init(struct kgt_zephyr *zephyr, const struct device *device, uint32_t base, size_t groups, size_t homes);
int kgt_zephyr_eeprom_init(struct kgt_zephyr *zephyr, const struct device *device, uint32_t base, size_t groups, size_t homes);

/* The driver for kgt_init, once one of these has returned 0. */
struct kgt_driver kgt_zephyr_driver(struct kgt_zephyr *zephyr);

/* For kgt_set_lock, with a struct k_mutex, which passes priority on, as context. */
int kgt_zephyr_lock(void *mutex);
void kgt_zephyr_unlock(void *mutex);

#ifdef __cplusplus
}
#endif

#endif
