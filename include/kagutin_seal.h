/*
 * Blocks with a checksum inside, for a station's own homes.
 *
 * The store keeps no checksums: a bit that flips in memory afterwards is read
 * as it is. A sealed block shows it. Its first 58 bytes are the station's; then
 * come the mark 4B 53 hex, and the CRC-32 of the 60 bytes before it, lowest byte
 * first. kagutin_seal puts mark and checksum in before a store, and
 * kagutin_look_at_seal tells after a read whether the block is as it was. The
 * tools look at every home that has the mark, but those that docs/HOMES.md gives
 * to the list of rights, bands, pumps and alarms, whose bytes are not to be had.
 *
 * The checksum finds every change of up to 32 bits that lie side by side, every
 * one of three bits or fewer, and of the others all but about one in 2^32. It
 * mends nothing.
 */
#ifndef KAGUTIN_SEAL_H
#define KAGUTIN_SEAL_H

#include <stddef.h>
#include <stdint.h>

#ifdef __cplusplus
extern "C" {
#endif

#define KAGUTIN_SEALED_SIZE 58 /* bytes of a sealed block that are the station's [S-84] */

enum kagutin_seal_state {
    KAGUTIN_SEAL_WHOLE, /* sealed, and as it was */
    KAGUTIN_SEAL_EMPTY, /* all zeros: never stored since the format */
    KAGUTIN_SEAL_NONE,  /* no mark: not sealed, or the mark itself has changed */
    KAGUTIN_SEAL_BROKEN /* the mark is there, and the checksum does not fit */
};

/* CRC-32 as in zip and Ethernet: polynomial EDB88320 hex, from the lowest bit on, inverted before and after. No table. */
static inline uint32_t kagutin_crc32(const uint8_t *bytes, size_t size)
{
    uint32_t crc = UINT32_MAX;
    size_t i;
    unsigned bit;

    for (i = 0; i < size; i++) {
        crc ^= bytes[i];
        for (bit = 0; bit < 8; bit++)
            crc = crc >> 1 ^ (crc & 1 ? UINT32_C(0xEDB88320) : 0);
    }
    return ~crc;
}

/* Puts mark and checksum behind the first 58 bytes of a block of 64. */
static inline void kagutin_seal(uint8_t *block)
{
    uint32_t crc;
    unsigned i;

    block[58] = 0x4B;
    block[59] = 0x53;
    crc = kagutin_crc32(block, 60);
    for (i = 0; i < 4; i++)
        block[60 + i] = crc >> 8 * i & 0xFF;
}

/* What a block of 64 bytes, as it was read, says of itself. Where a home is known to be sealed, all but whole and empty is damage. */
static inline enum kagutin_seal_state kagutin_look_at_seal(const uint8_t *block)
{
    uint32_t crc = 0, byte;
    unsigned i;

    for (i = 0; i < 64 && block[i] == 0; i++)
        ;
    if (i == 64)
        return KAGUTIN_SEAL_EMPTY;
    if (block[58] != 0x4B || block[59] != 0x53)
        return KAGUTIN_SEAL_NONE;
    for (i = 0; i < 4; i++) {
        byte = block[60 + i];
        crc |= byte << 8 * i;
    }
    return crc == kagutin_crc32(block, 60) ? KAGUTIN_SEAL_WHOLE : KAGUTIN_SEAL_BROKEN;
}

#ifdef __cplusplus
}
#endif

#endif
