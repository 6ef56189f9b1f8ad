/*
 * Known wrong programs, each one step away from the right one. The theorem
 * excludes them; the page shows what they lose.
 */
#include <string.h>

#include "lent.h"
#include "rule.h"

static size_t record_size(const uint8_t *record)
{
    switch (record[0]) {
    case 'G': return KAGUTIN_GW_SIZE;
    case 'H': return KAGUTIN_HW_SIZE;
    case 'K': return KAGUTIN_KW_SIZE;
    default: return KAGUTIN_FN_SIZE;
    }
}

size_t wrong_no_fence(uint8_t *batch, size_t size)
{
    size_t from, to = 0, length;

    for (from = 0; from < size; from += length) {
        length = record_size(batch + from);
        if (batch[from] == 'F')
            continue;
        memmove(batch + to, batch + from, length);
        to += length;
    }
    return to;
}

/* HW.., FN, [KW, FN], GW.., FN becomes HW.., FN, GW.., FN, [KW, FN]. */
void wrong_blanking_first(uint8_t *batch, size_t size)
{
    uint8_t header[KAGUTIN_KW_SIZE + KAGUTIN_FN_SIZE];
    size_t at = 0;

    while (at < size && batch[at] != 'K')
        at += record_size(batch + at);
    if (at == size)
        return;
    memcpy(header, batch + at, sizeof header);
    memmove(batch + at, batch + at + sizeof header, size - at - sizeof header);
    memcpy(batch + size - sizeof header, header, sizeof header);
}

/* Is the entry at a position one of a committed transaction? */
static bool committed(const struct rule_log *log, const struct rule_walk *walk, uint64_t position)
{
    uint64_t first = position - rule_tag(log, position).back;
    size_t i;

    for (i = 0; i < walk->commit_count; i++)
        if (walk->commits[i].first == first && position <= walk->commits[i].closing)
            return true;
    return false;
}

/* The block of each home's committed entry of the highest position, into the data copy. */
static void replay(const struct rule_log *log, const struct rule_walk *walk, uint8_t *area)
{
    uint64_t position, base = KAGUTIN_GROUP_ENTRIES * log->start;

    for (position = base; position < base + KAGUTIN_GROUP_ENTRIES * log->groups; position++) {
        struct tag tag;

        if (!rule_present(log, position))
            continue;
        tag = rule_tag(log, position);
        if (tag.kind != TAG_NOTHING && committed(log, walk, position))
            rule_block(log, position, area + kagutin_area_size((size_t)tag.home));
    }
}

struct kagutin_reply wrong_open_by_position(struct lent *lent)
{
    struct rule_log log = {lent->log, lent->groups, lent->homes, rule_number(lent->log + 2, 6), false};
    struct kagutin_reply reply;
    struct rule_walk walk;
    uint8_t *area = lent->batch + lent->batch_size; /* as much room as the homes take lies behind the batch */
    size_t at;

    memcpy(area, lent->area, lent->area_size);
    if (rule_walk(&log, &walk))
        replay(&log, &walk, area);
    rule_free(&walk);
    reply = kagutin_open(lent->log, lent->log_size, lent->area, lent->area_size, lent->state, KAGUTIN_STATE_SIZE, lent->newest,
                         lent->newest_size, lent->batch, lent->batch_size);
    if (reply.code != KAGUTIN_DONE)
        return reply;
    memcpy(lent->area, area, lent->area_size);
    for (at = 0; at < reply.size; at += record_size(lent->batch + at))
        if (lent->batch[at] == 'H')
            memcpy(lent->batch + at + 4, area + kagutin_area_size((size_t)rule_number(lent->batch + at + 2, 2)),
                   KAGUTIN_BLOCK_SIZE);
    return reply;
}
