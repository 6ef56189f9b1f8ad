/*
 * The commit rule over a log area, written from the format alone. It needs no
 * library; the inspector prints what it finds and the station holds openings
 * against it.
 */
#ifndef COMMON_RULE_H
#define COMMON_RULE_H

#include <stdbool.h>
#include <stddef.h>
#include <stdint.h>

/* A log area and the start under which it is read. */
struct rule_log {
    const uint8_t *bytes; /* 64 + 512 x groups of them */
    size_t groups, homes;
    uint64_t start;
    bool older; /* the format before turn bits: groups landed whole, and a data block is the entry's own */
};

enum slot_kind {
    SLOT_VALID,
    SLOT_BLANK,   /* not written since the last opening, or the format */
    SLOT_PART,    /* hole: torn, data blocks are there but its number is not */
    SLOT_MARK,    /* hole: wrong mark */
    SLOT_PLACE,   /* hole: the number belongs to another slot */
    SLOT_TRIMMED, /* hole: the number is below the start */
    SLOT_BEYOND   /* hole: the number is start + G or more */
};

enum tag_kind { TAG_NOTHING, TAG_ENTRY, TAG_CLOSING };

struct tag {
    enum tag_kind kind;
    const char *why; /* TAG_NOTHING: the reason; null if merely unused */
    bool torn;       /* the tag is sound, but its data block has not arrived */
    uint64_t home, back, link, count;
};

enum stop_kind {
    STOP_END,        /* no closing entry is left */
    STOP_INCOMPLETE, /* the next one counts more or fewer entries than are there */
    STOP_LINK        /* the next one is linked elsewhere than to the last commit */
};

struct rule_commit {
    uint64_t first, closing; /* positions */
    uint64_t link, count;
    size_t present; /* entries found that belong to it */
};

struct rule_walk {
    struct rule_commit *commits; /* in commit order */
    size_t commit_count;
    enum stop_kind stop;
    struct rule_commit failed; /* unless STOP_END: the closing entry that ended the walk */
    size_t unreached;          /* closing entries after that one */
};

uint64_t rule_number(const uint8_t *bytes, size_t width);
const uint8_t *rule_slot(const struct rule_log *log, size_t slot);
enum slot_kind rule_slot_kind(const struct rule_log *log, size_t slot);

/* Data blocks in a slot without a valid group that are there while their own group's number is not: what a cut left of a write. */
size_t rule_loose(const struct rule_log *log, size_t slot);

/* A ring slot that no group has been written to, in a log with this start: 512 bytes. */
void rule_unused(size_t groups, uint64_t start, size_t slot, uint8_t *group);

/* The 64 bytes of the entry at a position: its data block, the displaced bit back in its place. */
void rule_block(const struct rule_log *log, uint64_t position, uint8_t *block);

/* Reads the tag at a position of a valid group. */
struct tag rule_tag(const struct rule_log *log, uint64_t position);

/* True if the position lies in a valid group. */
bool rule_present(const struct rule_log *log, uint64_t position);

/* Walks the closing entries. False if memory is short; else rule_free. */
bool rule_walk(const struct rule_log *log, struct rule_walk *walk);
void rule_free(struct rule_walk *walk);

#endif
