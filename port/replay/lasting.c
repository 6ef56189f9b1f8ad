/* Lasting memory behind the driver: batches are carried out, blocks written since the last fence may be lost at a cut. */
#include <string.h>

#include "replay.h"

enum { PENDING_ROOM = 1 << 17 };

static uint8_t log_kept[LOG_ROOM], area_kept[AREA_ROOM];
static uint8_t pending[PENDING_ROOM];
static size_t pending_size;
unsigned long cuts;

static size_t record_size(const uint8_t *record)
{
    switch (record[0]) {
    case 'G': return KAGUTIN_GW_SIZE;
    case 'H': return KAGUTIN_HW_SIZE;
    case 'K': return KAGUTIN_KW_SIZE;
    default: return KAGUTIN_FN_SIZE;
    }
}

/* All blocks of 64 bytes, or each as the coin falls. */
static void persist_blocks(uint8_t *to, const uint8_t *from, size_t size, uint32_t (*coin)(void))
{
    size_t at;

    for (at = 0; at < size; at += KAGUTIN_BLOCK_SIZE)
        if (!coin || coin() & 1u)
            memcpy(to + at, from + at, KAGUTIN_BLOCK_SIZE);
}

static void persist(const uint8_t *record, uint32_t (*coin)(void))
{
    size_t place = (size_t)record[2] | (size_t)record[3] << 8;

    if (record[0] == 'G')
        persist_blocks(log_kept + kagutin_log_size(place), record + 4, KAGUTIN_GROUP_SIZE, coin);
    else if (record[0] == 'H')
        persist_blocks(area_kept + kagutin_area_size(place), record + 4, KAGUTIN_BLOCK_SIZE, coin);
    else if (record[0] == 'K')
        persist_blocks(log_kept, record + 2, KAGUTIN_HEADER_SIZE, coin);
}

static void persist_pending(uint32_t (*coin)(void))
{
    size_t at;

    for (at = 0; at < pending_size; at += record_size(pending + at))
        persist(pending + at, coin);
    pending_size = 0;
}

void lasting_start(void)
{
    pending_size = 0;
    memset(log_kept, 0xdd, lent.log_size);
    memset(area_kept, 0xdd, lent.area_size);
}

/* Carries out so many records of the lent batch. A fence passes when all before it persists; so may writes at any time. */
void lasting_run(size_t size, size_t records)
{
    size_t at, one;

    for (at = 0; at < size && records > 0; at += one, records--) {
        one = record_size(lent.batch + at);
        if (lent.batch[at] == 'F' || pending_size + one > sizeof pending)
            persist_pending(NULL);
        if (lent.batch[at] != 'F') {
            memcpy(pending + pending_size, lent.batch + at, one);
            pending_size += one;
        }
    }
}

void lasting_cut(uint32_t (*coin)(void))
{
    persist_pending(coin);
    memcpy(lent.log, log_kept, lent.log_size);
    memcpy(lent.area, area_kept, lent.area_size);
    cuts++;
}
