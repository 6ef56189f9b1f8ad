/* A medium in ordinary memory. */
#include "kagutin_memory.h"

#include <string.h>

#define WORD 8u
#define BLOCK 64u

void kgt_memory_init(struct kgt_memory *memory, uint8_t *lasting, uint8_t *written, size_t groups, size_t homes)
{
    memory->lasting = lasting;
    memory->written = written;
    memory->log_size = KGT_LOG_SIZE(groups);
    memory->size = memory->log_size + KGT_HOMES_SIZE(homes);
    memory->low = memory->size;
    memory->high = 0;
    memory->left = UINT64_MAX;
    memory->off = false;
    memory->unit = WORD;
    memcpy(written, lasting, memory->size);
}

void kgt_memory_keep_blocks(struct kgt_memory *memory)
{
    memory->unit = BLOCK;
}

static size_t offset(const struct kgt_memory *memory, enum kgt_area area, size_t at)
{
    return area == KGT_LOG ? at : memory->log_size + at;
}

static void settle(struct kgt_memory *memory)
{
    if (memory->low < memory->high)
        memcpy(memory->lasting + memory->low, memory->written + memory->low, memory->high - memory->low);
    memory->low = memory->size;
    memory->high = 0;
}

static int fence(void *context)
{
    struct kgt_memory *memory = (struct kgt_memory *)context;

    if (memory->off)
        return 1;
    settle(memory);
    return 0;
}

static int load(void *context, enum kgt_area area, size_t at, uint8_t *bytes, size_t size)
{
    struct kgt_memory *memory = (struct kgt_memory *)context;

    if (fence(context))
        return 1;
    memcpy(bytes, memory->lasting + offset(memory, area, at), size);
    return 0;
}

static int write(void *context, enum kgt_area area, size_t at, const uint8_t *bytes, size_t size)
{
    struct kgt_memory *memory = (struct kgt_memory *)context;
    size_t from = offset(memory, area, at), count = size;

    if (memory->off)
        return 1;
    if (memory->left != UINT64_MAX) {
        if (memory->left < size) {
            count = (size_t)(memory->left - memory->left % memory->unit);
            memory->off = true;
        }
        memory->left -= memory->off ? memory->left : size;
    }
    memcpy(memory->written + from, bytes, count);
    if (from < memory->low)
        memory->low = from;
    if (from + count > memory->high)
        memory->high = from + count;
    return memory->off;
}

struct kgt_driver kgt_memory_driver(struct kgt_memory *memory)
{
    struct kgt_driver driver;

    driver.context = memory;
    driver.load = load;
    driver.write = write;
    driver.fence = fence;
    driver.landing = memory->unit == BLOCK ? KGT_LANDS_BLOCKS : KGT_LANDS_WORDS;
    return driver;
}

void kgt_memory_stop_after(struct kgt_memory *memory, uint64_t bytes)
{
    memory->left = bytes;
}

void kgt_memory_cut(struct kgt_memory *memory, bool (*lands)(void *context, size_t at), void *context)
{
    size_t at;

    for (at = memory->low - memory->low % memory->unit; lands && at < memory->high; at += memory->unit)
        if (memcmp(memory->lasting + at, memory->written + at, memory->unit) != 0 && !lands(context, at))
            memcpy(memory->written + at, memory->lasting + at, memory->unit);
    settle(memory);
    memory->left = UINT64_MAX;
    memory->off = false;
}
