/* What an opening makes of each entry and each home. */
#include "inspect.h"

#include <stdlib.h>
#include <string.h>

#define BLOCK 64u

const char *fate_text(enum fate fate)
{
    switch (fate) {
    case FATE_BACK: return "comes back";
    case FATE_OPEN: return "will not come back: no closing entry, its transaction was open or aborted";
    case FATE_INCOMPLETE: return "will not come back: entries of its transaction are missing";
    case FATE_LINK: return "will not come back: its transaction does not follow the last commit";
    case FATE_NOT_KNOWN: return "not known whether it comes back: slots of the log were not read";
    default: return "will not come back: its transaction closes after the walk has stopped";
    }
}

void image_home(const struct image *image, const struct fates *fates, size_t home, uint8_t *block)
{
    if (fates->newest[home])
        rule_block(&image->log, fates->newest[home] - 1, block);
    else
        memcpy(block, rule_slot(&image->log, image->log.groups) + BLOCK * home, BLOCK);
}

/* Entries of committed transactions, in commit order. */
static void mark_commits(struct fates *fates, const struct image *image, const struct rule_walk *walk)
{
    uint64_t base = 7 * image->log.start, position;
    size_t i;

    for (i = 0; i < walk->commit_count; i++) {
        const struct rule_commit *commit = &walk->commits[i];

        for (position = commit->first; position <= commit->closing; position++)
            if (image_belongs(image, commit, position)) {
                fates->committed += fates->entries[position - base] != FATE_BACK;
                fates->entries[position - base] = FATE_BACK;
                fates->newest[rule_tag(&image->log, position).home] = position + 1;
            }
    }
}

/* The fate of a transaction that is not committed, by 1 + where it closes, or 0. */
static enum fate fate_at(const struct image *image, const struct rule_walk *walk, uint64_t next)
{
    uint64_t closing = next - 1;

    if (image->slots_read < image->log.groups)
        return FATE_NOT_KNOWN;
    if (next == 0)
        return FATE_OPEN;
    if (closing != walk->failed.closing)
        return FATE_AFTER;
    return walk->stop == STOP_LINK ? FATE_LINK : FATE_INCOMPLETE;
}

bool fates_find(struct fates *fates, const struct image *image, const struct rule_walk *walk)
{
    uint64_t base = 7 * image->log.start, size = 7 * image->log.groups, offset;
    size_t slot;
    uint64_t *closing = calloc((size_t)size, sizeof *closing); /* by first position: 1 + the next closing one */

    fates->entries = calloc((size_t)size, sizeof *fates->entries);
    fates->newest = calloc(image->log.homes, sizeof *fates->newest);
    fates->committed = fates->others = fates->torn = 0;
    if (!closing || !fates->entries || !fates->newest) {
        free(closing);
        fates_free(fates);
        return false;
    }
    for (offset = size; offset-- > 0;) {
        struct tag tag;
        uint64_t *next;

        if (!rule_present(&image->log, base + offset))
            continue;
        tag = rule_tag(&image->log, base + offset);
        fates->torn += tag.torn;
        if (tag.kind == TAG_NOTHING)
            continue;
        next = &closing[offset - tag.back];
        if (tag.kind == TAG_CLOSING)
            *next = base + offset + 1;
        fates->entries[offset] = fate_at(image, walk, *next);
        fates->others++;
    }
    free(closing);
    for (slot = 0; slot < image->slots_read; slot++)
        fates->torn += rule_loose(&image->log, slot);
    mark_commits(fates, image, walk);
    fates->others -= fates->committed;
    return true;
}

void fates_free(struct fates *fates)
{
    free(fates->entries);
    free(fates->newest);
    fates->entries = NULL;
    fates->newest = NULL;
}
