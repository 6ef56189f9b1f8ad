/* A stub of Zephyr's header, for the test of zephyr/kagutin_zephyr.c: a device is some bytes, and fails when its power is gone. */
#ifndef STUB_ZEPHYR_DEVICE_H
#define STUB_ZEPHYR_DEVICE_H

#include <stdbool.h>
#include <stddef.h>
#include <stdint.h>
#include <sys/types.h>

struct device {
    bool ready;
    uint8_t *bytes;
    size_t size;
    bool falling;       /* a write of more than one byte begins with its last */
    bool late;          /* it is done before its bytes have arrived */
    unsigned long left; /* bytes until power fails */
};

static inline bool device_is_ready(const struct device *dev)
{
    return dev && dev->ready;
}

int stub_read(const struct device *dev, off_t offset, void *data, size_t size);
int stub_write(const struct device *dev, off_t offset, const void *data, size_t size);

#endif
