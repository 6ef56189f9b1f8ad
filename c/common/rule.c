#include "rule.h"

#include <stdlib.h>
#include <string.h>

uint64_t rule_number(const uint8_t *bytes, size_t width)
{
    uint64_t number = 0;

    while (width-- > 0)
        number = number << 8 | bytes[width];
    return number;
}

const uint8_t *rule_slot(const struct rule_log *log, size_t slot)
{
    return log->bytes + 64 + 512 * slot;
}

/* Up to 64 bytes. */
static bool all_zero(const uint8_t *bytes, size_t size)
{
    static const uint8_t zeros[64] = {0};

    return memcmp(bytes, zeros, size) == 0;
}

/* Zeros, whatever the turn bit. */
static bool is_blank_block(const uint8_t *block)
{
    return all_zero(block, 63) && !(block[63] & 0x7F);
}

static bool is_blank(const uint8_t *group)
{
    size_t at;

    if (!all_zero(group, 64))
        return false;
    for (at = 64; at < 512; at += 64)
        if (!is_blank_block(group + at))
            return false;
    return true;
}

enum slot_kind rule_slot_kind(const struct rule_log *log, size_t slot)
{
    const uint8_t *group = rule_slot(log, slot);
    uint64_t number = rule_number(group + 2, 6);

    if (all_zero(group, 8))
        return is_blank(group) ? SLOT_BLANK : SLOT_PART;
    if (group[0] != 0x50 || group[1] != 0x47)
        return SLOT_MARK;
    if (number % log->groups != slot)
        return SLOT_PLACE;
    if (number < log->start)
        return SLOT_TRIMMED;
    return number - log->start < log->groups ? SLOT_VALID : SLOT_BEYOND;
}

size_t rule_loose(const struct rule_log *log, size_t slot)
{
    enum slot_kind kind = rule_slot_kind(log, slot);
    const uint8_t *group = rule_slot(log, slot);
    uint64_t turn = rule_number(group + 2, 6) / log->groups % 2; /* of the trimmed group's own blocks */
    size_t at, count = 0;

    if (kind != SLOT_PART && (kind != SLOT_TRIMMED || log->older))
        return 0;
    for (at = 64; at < 512; at += 64)
        count += !is_blank_block(group + at) && (kind == SLOT_PART || group[at + 63] >> 7 != turn);
    return count;
}

bool rule_present(const struct rule_log *log, uint64_t position)
{
    uint64_t number = position / 7;
    const uint8_t *group = rule_slot(log, (size_t)(number % log->groups));

    return number >= log->start && number - log->start < log->groups && group[0] == 0x50 && group[1] == 0x47
        && rule_number(group + 2, 6) == number;
}

/* Why a tag reads as nothing; null if it reads as an entry. */
static const char *tag_fault(const struct rule_log *log, uint64_t position, uint64_t word, const struct tag *tag)
{
    if (word >> 58)
        return "one of bits 58 to 63 is set";
    if (log->older && word >> 57)
        return "bit 57 is set, which the older format had not";
    if (!(word & 2) && (word >> 27 & 0x3FFFFFF))
        return "not closing, but one of bits 27 to 52 is set";
    if (tag->home >= log->homes)
        return "its home is not below D";
    if (position - 7 * log->start < tag->back)
        return "its first entry would lie before the start";
    if ((word & 2) && tag->count == 0)
        return "it closes with number 0";
    return NULL;
}

void rule_unused(size_t groups, uint64_t start, size_t slot, uint8_t *group)
{
    uint64_t round = start / groups + (slot < start % groups); /* in which the slot is written next */
    size_t end;

    memset(group, 0, 512);
    for (end = 128; end <= 512; end += 64)
        group[end - 1] = round % 2 ? 0 : 0x80;
}

static const uint8_t *data_block(const struct rule_log *log, uint64_t position)
{
    return rule_slot(log, (size_t)(position / 7 % log->groups)) + 64 + 64 * (position % 7);
}

static uint64_t tag_word(const struct rule_log *log, uint64_t position)
{
    return rule_number(rule_slot(log, (size_t)(position / 7 % log->groups)) + 8 + 8 * (position % 7), 8);
}

void rule_block(const struct rule_log *log, uint64_t position, uint8_t *block)
{
    memcpy(block, data_block(log, position), 64);
    if (log->older)
        return;
    block[63] = (uint8_t)((block[63] & 0x7F) | (tag_word(log, position) >> 57 & 1) << 7);
}

/* Is the turn bit of the block at a position that of its group's round of the ring? */
static bool turn_fits(const struct rule_log *log, uint64_t position)
{
    return log->older || data_block(log, position)[63] >> 7 == position / 7 / log->groups % 2;
}

struct tag rule_tag(const struct rule_log *log, uint64_t position)
{
    uint64_t word = tag_word(log, position);
    struct tag tag;

    tag.kind = TAG_NOTHING;
    tag.torn = false;
    tag.home = (word >> 2 & 0xFFF) | (word >> 53 & 0xF) << 12;
    tag.back = word >> 14 & 0x1FFF;
    tag.link = word >> 27 & 0x1FFF;
    tag.count = word >> 40 & 0x1FFF;
    if (!(word & 1)) {
        tag.why = word ? "its used bit is not set, but others are" : NULL;
        return tag;
    }
    tag.why = tag_fault(log, position, word, &tag);
    tag.torn = !tag.why && !turn_fits(log, position);
    if (tag.torn)
        tag.why = "its data block has not arrived: the turn bit there is another round's";
    if (!tag.why)
        tag.kind = word & 2 ? TAG_CLOSING : TAG_ENTRY;
    return tag;
}

/* Is a closing entry at this offset from the start linked as the walk needs it? */
static bool linked(const struct rule_walk *walk, uint64_t base, uint64_t offset, uint64_t link)
{
    if (walk->commit_count == 0)
        return link == 0 || link > offset;
    return link != 0 && walk->commits[walk->commit_count - 1].closing == base + offset - link;
}

/* Judges the next closing entry; false if it ends the walk. */
static bool take(struct rule_walk *walk, uint64_t base, uint64_t offset, const struct tag *tag, size_t present)
{
    struct rule_commit commit;

    commit.closing = base + offset;
    commit.first = commit.closing - tag->back;
    commit.link = tag->link;
    commit.count = tag->count;
    commit.present = present;
    if (commit.present == commit.count && linked(walk, base, offset, tag->link)) {
        walk->commits[walk->commit_count++] = commit;
        return true;
    }
    walk->stop = commit.present == commit.count ? STOP_LINK : STOP_INCOMPLETE;
    walk->failed = commit;
    return false;
}

bool rule_walk(const struct rule_log *log, struct rule_walk *walk)
{
    uint64_t base = 7 * log->start, size = 7 * log->groups, offset;
    size_t *found = calloc((size_t)size, sizeof *found); /* entries by first position */
    bool ended = false;

    memset(walk, 0, sizeof *walk);
    walk->commits = calloc((size_t)size, sizeof *walk->commits);
    if (!found || !walk->commits) {
        free(found);
        rule_free(walk);
        return false;
    }
    for (offset = 0; offset < size; offset++) {
        struct tag tag;

        if (!rule_present(log, base + offset))
            continue;
        tag = rule_tag(log, base + offset);
        if (tag.kind == TAG_NOTHING)
            continue;
        found[offset - tag.back]++;
        if (tag.kind != TAG_CLOSING)
            continue;
        if (ended)
            walk->unreached++;
        else
            ended = !take(walk, base, offset, &tag, found[offset - tag.back]);
    }
    free(found);
    return true;
}

void rule_free(struct rule_walk *walk)
{
    free(walk->commits);
    walk->commits = NULL;
}
