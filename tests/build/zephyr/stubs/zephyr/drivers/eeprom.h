/* A stub of Zephyr's header, for the test of zephyr/kagutin_zephyr.c. */
#ifndef STUB_ZEPHYR_EEPROM_H
#define STUB_ZEPHYR_EEPROM_H

#include <zephyr/device.h>

static inline int eeprom_read(const struct device *dev, off_t offset, void *data, size_t len)
{
    return stub_read(dev, offset, data, len);
}

static inline int eeprom_write(const struct device *dev, off_t offset, const void *data, size_t len)
{
    return stub_write(dev, offset, data, len);
}

static inline size_t eeprom_get_size(const struct device *dev)
{
    return dev->size;
}

#endif
