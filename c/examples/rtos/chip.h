/*
 * A serial FRAM behind an emulated bus: byte by byte, as a SPI peripheral sends
 * them. It keeps its bytes over a reset of the processor, loses power inside a
 * write when it is told to, and sometimes the bus fails.
 */
#ifndef RTOS_CHIP_H
#define RTOS_CHIP_H

#include <stddef.h>
#include <stdint.h>

enum { CHIP_SIZE = 32768, CHIP_BUS_FAILED = 1 };

struct chip {
    uint8_t bytes[CHIP_SIZE];
    /* These begin anew with each power-on. */
    uint32_t until_cut, until_failure; /* bytes; 0: none */
    uint32_t failures;
    uint8_t write_enabled;
};

/* Called when power is gone; does not return. */
extern void chip_power_gone(void);

/* For kgt_fram_init; bus is the chip. */
int chip_transfer(void *bus, const uint8_t *command, size_t command_size, const uint8_t *out, uint8_t *in, size_t size);

#endif
