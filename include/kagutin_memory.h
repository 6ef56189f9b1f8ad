/*
 * A medium in ordinary memory that loses power on demand, for tests.
 *
 * Writes gather until a fence; a cut then picks, word by word or block by
 * block, which of them arrive. Or power fails after a number of bytes, in the
 * order in which they are written; the word or block that it stops in does not
 * arrive.
 */
#ifndef KAGUTIN_MEMORY_H
#define KAGUTIN_MEMORY_H

#include "kagutin_store.h"

#ifdef __cplusplus
extern "C" {
#endif

struct kgt_memory {
    uint8_t *lasting; /* log area, then homes: what a cut leaves */
    uint8_t *written; /* the same with all writes since the last fence */
    size_t log_size, size;
    size_t low, high; /* written differs at most from low to below high */
    size_t unit;      /* bytes that arrive whole: 8, or 64 */
    uint64_t left;    /* bytes until power fails */
    bool off;         /* it has failed: nothing is written until the cut */
};

/* Both arrays have the size of both areas; lasting holds what is stored. */
void kgt_memory_init(struct kgt_memory *memory, uint8_t *lasting, uint8_t *written, size_t groups, size_t homes);

/* Blocks of 64 bytes arrive whole, not only words of 8; call it before the driver is taken. */
void kgt_memory_keep_blocks(struct kgt_memory *memory);

/* Its driver. It fails with error 1 while power is off. */
struct kgt_driver kgt_memory_driver(struct kgt_memory *memory);

/* Power fails after so many more bytes; UINT64_MAX: never. */
void kgt_memory_stop_after(struct kgt_memory *memory, uint64_t bytes);

/*
 * Power is cut and comes back. Of the words, or blocks, written since the last
 * fence those that lands() picks by their offset arrive; all if it is null.
 */
void kgt_memory_cut(struct kgt_memory *memory, bool (*lands)(void *context, size_t at), void *context);

#ifdef __cplusplus
}
#endif

#endif
