/* The inspector's output as text. */
#include <stdio.h>

#include "inspect.h"

typedef unsigned long long number;

static const char *const kinds[] = {"nothing", "entry", "closing"};
static const char digits[] = "0123456789abcdef";

/* A byte of a block as text: itself if it can be printed, else a dot. */
static char printable(uint8_t byte)
{
    return byte >= 0x20 && byte < 0x7f ? (char)byte : '.';
}

/* How much of a block is left when the zeros at its end are taken off. */
static size_t used_size(const uint8_t *block)
{
    size_t size = 64;

    while (size > 0 && !block[size - 1])
        size--;
    return size;
}

static void text_entry(const struct image *image, const struct fates *fates, uint64_t position)
{
    struct tag tag = rule_tag(&image->log, position);

    if (tag.torn) {
        printf("      %12llu  torn     home %5llu  first %llu\n      %12s  ! nothing: %s\n", (number)position, (number)tag.home,
               (number)(position - tag.back), "", tag.why);
        return;
    }
    if (tag.kind == TAG_NOTHING) {
        if (tag.why)
            printf("      %12llu  reads as nothing: %s\n", (number)position, tag.why);
        return;
    }
    printf("      %12llu  %-7s  home %5llu  first %llu", (number)position, kinds[tag.kind], (number)tag.home,
           (number)(position - tag.back));
    if (tag.kind == TAG_CLOSING) {
        printf("  entries %llu  link ", (number)tag.count);
        if (tag.link == 0)
            fputs("none", stdout);
        else if (tag.link > position)
            fputs("before 0", stdout);
        else
            printf("%llu", (number)(position - tag.link));
    }
    putchar('\n');
    if (fates->entries[position - 7 * image->log.start] != FATE_BACK)
        printf("      %12s  ! %s\n", "", fate_text(fates->entries[position - 7 * image->log.start]));
}

static void text_slot(const struct image *image, const struct fates *fates, size_t slot)
{
    const char *hole = image_hole(image, slot);
    const uint8_t *group = rule_slot(&image->log, slot);
    uint64_t name = rule_number(group + 2, 6);
    size_t k;

    if (hole) {
        if (group[0] == 0x50 && group[1] == 0x47)
            printf("  slot %4lu  hole (group %llu): %s\n", (unsigned long)slot, (number)name, hole);
        else
            printf("  slot %4lu  hole: %s\n", (unsigned long)slot, hole);
        return;
    }
    printf("  slot %4lu  group %llu\n", (unsigned long)slot, (number)name);
    for (k = 0; k < 7; k++)
        text_entry(image, fates, 7 * name + k);
}

static void text_commit(const struct image *image, const struct rule_commit *commit, size_t rank)
{
    uint64_t position;

    printf("  %4lu  positions %llu to %llu, %llu entries, homes", (unsigned long)rank + 1, (number)commit->first,
           (number)commit->closing, (number)commit->count);
    for (position = commit->first; position <= commit->closing; position++)
        if (image_belongs(image, commit, position))
            printf(" %llu", (number)rule_tag(&image->log, position).home);
    putchar('\n');
}

/* Sixteen bytes on a line, in hex and as text, without the zeros at the end. */
static void text_home(const struct image *image, const struct fates *fates, size_t home)
{
    uint8_t block[64];
    size_t size, at, i;

    image_home(image, fates, home, block);
    size = used_size(block);

    for (at = 0; at < size; at += 16) {
        if (at == 0)
            printf("  %5lu  ", (unsigned long)home);
        else
            printf("         ");
        for (i = at; i < at + 16; i++) {
            if (i % 4 == 0)
                putchar(' ');
            putchar(digits[block[i] >> 4]);
            putchar(digits[block[i] & 15]);
        }
        fputs("  ", stdout);
        for (i = at; i < at + 16; i++)
            putchar(printable(block[i]));
        if (at == 0 && fates->newest[home])
            printf("  from position %llu", (number)(fates->newest[home] - 1));
        putchar('\n');
    }
}

static void text_homes(const struct image *image, const struct fates *fates)
{
    size_t home, zeros = 0, known = 0;
    uint8_t block[64];

    for (home = 0; home < image->log.homes; home++) {
        if (!image_knows(image, fates, home, 1))
            continue;
        image_home(image, fates, home, block);
        known++;
        zeros += used_size(block) == 0;
    }
    printf("\nhomes (%lu, %lu of them zeros", (unsigned long)image->log.homes, (unsigned long)zeros);
    if (known < image->log.homes)
        printf(", %lu not read", (unsigned long)(image->log.homes - known));
    puts("), as an opening leaves them; zeros at a block's end are left out");
    for (home = 0; home < image->log.homes; home++)
        if (image_knows(image, fates, home, 1))
            text_home(image, fates, home);
}

/* The two copies of a dump's header, and what lies behind the store. */
static void text_dump(const struct image *image)
{
    static const char *const others[] = {"older", "the same", "not written yet", "torn"};

    if (!image->dump)
        return;
    fputs("dump    of a serial FRAM", stdout);
    if (image->base)
        printf(", from byte %llu on", (number)image->base);
    printf(": the header's copy at %u counts, the one at %u is %s; %llu bytes behind are left out\n", 32 * image->copy,
           32 * (1 - image->copy), others[image->the_other],
           (number)(image->file_size > image->image_size ? image->file_size - image->image_size : 0));
}

static void text_header(const struct image *image, const struct fates *fates)
{
    const struct rule_log *log = &image->log;
    size_t missing = 7 * (log->groups - image->slots_read);

    printf("image   %s, %llu bytes\n", image->path, (number)image->file_size);
    text_dump(image);
    text_not_read(image, fates);
    printf("header  %s; start %llu %s, %lu groups, %lu homes\n", image->header_fits ? "fits" : "DAMAGED", (number)log->start,
           image->start_from, (unsigned long)log->groups, (unsigned long)log->homes);
    printf("live    groups %llu to %llu, positions %llu to %llu\n", (number)log->start, (number)(log->start + log->groups - 1),
           (number)(7 * log->start), (number)(7 * (log->start + log->groups) - 1));
    if (image_worn_out(image))
        puts("worn    out: an opening would move the start past 2^47 and is refused; homes as it would leave them");
    printf("places  %lu: %lu with entries that come back, %lu with others, %lu torn, %lu unused",
           (unsigned long)(7 * log->groups), (unsigned long)fates->committed, (unsigned long)fates->others,
           (unsigned long)fates->torn,
           (unsigned long)(7 * log->groups - fates->committed - fates->others - fates->torn - missing));
    if (missing)
        printf(", %lu not read", (unsigned long)missing);
    putchar('\n');
}

void print_text(const struct image *image, const struct rule_walk *walk, const struct fates *fates)
{
    char stop[200];
    size_t i;

    text_header(image, fates);
    puts("\ngroups");
    for (i = 0; i < image->slots_read; i++)
        text_slot(image, fates, i);
    if (i < image->log.groups)
        printf("  slots %lu to %lu  not read, " NOT_READ "\n", (unsigned long)i, (unsigned long)image->log.groups - 1);
    printf("\ncommits (%lu%s)\n", (unsigned long)walk->commit_count,
           i < image->log.groups ? ", in the slots that were read" : "");
    for (i = 0; i < walk->commit_count; i++)
        text_commit(image, &walk->commits[i], i);
    describe_stop(image, walk, stop, sizeof stop);
    printf("the walk stopped: %s\n", stop);
    if (walk->unreached)
        printf("closing entries after that: %lu\n", (unsigned long)walk->unreached);
    text_homes(image, fates);
    text_units(image, fates);
    text_rights(image, fates);
    printf("\ndamage (%lu)\n", (unsigned long)image->note_count);
    for (i = 0; i < image->note_count; i++)
        printf("  %s\n", image->notes[i]);
}
