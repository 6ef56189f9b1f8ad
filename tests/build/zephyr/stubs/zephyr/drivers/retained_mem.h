/* A stub of Zephyr's header, for the test of zephyr/kagutin_zephyr.c. */
#ifndef STUB_ZEPHYR_RETAINED_MEM_H
#define STUB_ZEPHYR_RETAINED_MEM_H

#include <zephyr/device.h>

static inline ssize_t retained_mem_size(const struct device *dev)
{
    return (ssize_t)dev->size;
}

static inline int retained_mem_read(const struct device *dev, off_t offset, uint8_t *buffer, size_t size)
{
    return stub_read(dev, offset, buffer, size);
}

static inline int retained_mem_write(const struct device *dev, off_t offset, const uint8_t *buffer, size_t size)
{
    return stub_write(dev, offset, buffer, size);
}

#endif
