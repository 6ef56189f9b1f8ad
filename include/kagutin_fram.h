/*
 * A serial FRAM or MRAM as lasting memory: a template that needs one function
 * of the board, a transfer over SPI. Most such chips take these commands: 06
 * write enable, 02 write, 03 read, with an address of two or three bytes.
 *
 * Landing: bytes arrive at once and in order, so a fence has nothing to wait
 * for, and a cut stops inside a write. A group's first word, written last,
 * needs no more than that (docs/DRIVERS.md). The header does: its first twelve
 * bytes stand twice in the place of 64 bytes that it has, at 0 and at 32, each
 * time followed by their complements. A write goes to the older copy; loading
 * takes the whole one with the higher start. A format wipes the older copy
 * first, so that a cut inside it leaves the store as it was, or none. [S-83]
 */
#ifndef KAGUTIN_FRAM_H
#define KAGUTIN_FRAM_H

#include "kagutin_store.h"

#ifdef __cplusplus
extern "C" {
#endif

struct kgt_fram {
    /*
     * One selection of the chip: sends the command, then sends out or reads in,
     * whichever is not null. Returns 0, or the board's error; also then no
     * byte reaches the chip after it has returned.
     */
    int (*transfer)(void *bus, const uint8_t *command, size_t command_size, const uint8_t *out, uint8_t *in, size_t size);
    void *bus;
    uint32_t base;          /* where the image begins in the chip */
    unsigned address_bytes; /* 2 or 3 */
    size_t log_size;
    unsigned newest; /* copy of the header that counts */
};

void kgt_fram_init(struct kgt_fram *fram, size_t groups, uint32_t base, unsigned address_bytes,
                   int (*transfer)(void *bus, const uint8_t *command, size_t command_size, const uint8_t *out, uint8_t *in,
                                   size_t size),
                   void *bus);

struct kgt_driver kgt_fram_driver(struct kgt_fram *fram);

#ifdef __cplusplus
}
#endif

#endif
