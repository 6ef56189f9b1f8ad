/* The inspector's output as JSON. */
#include <stdio.h>

#include "inspect.h"

typedef unsigned long long number;

static const char *const kinds[] = {"nothing", "entry", "closing"};

static void print_hex(const uint8_t *bytes, size_t size)
{
    static const char digits[] = "0123456789abcdef";
    size_t i;

    for (i = 0; i < size; i++) {
        putchar(digits[bytes[i] >> 4]);
        putchar(digits[bytes[i] & 15]);
    }
}

/* Bytes of the UTF-8 sequence that begins here; 0 if none does. */
static size_t utf8_size(const unsigned char *text)
{
    size_t size = *text < 0x80          ? 1
        : *text >= 0xc2 && *text < 0xe0 ? 2
        : *text >= 0xe0 && *text < 0xf0 ? 3
        : *text >= 0xf0 && *text < 0xf5 ? 4
                                        : 0;
    size_t i;

    for (i = 1; i < size; i++)
        if ((text[i] & 0xc0) != 0x80)
            return 0;
    if ((*text == 0xe0 && text[1] < 0xa0) || (*text == 0xed && text[1] > 0x9f) || (*text == 0xf0 && text[1] < 0x90)
        || (*text == 0xf4 && text[1] > 0x8f))
        return 0;
    return size;
}

/* UTF-8 as it is; a byte that is none becomes the replacement character. */
static void json_string(const char *text)
{
    const unsigned char *c = (const unsigned char *)text;

    putchar('"');
    while (*c) {
        size_t size = utf8_size(c);

        if (*c == '"' || *c == '\\')
            printf("\\%c", *c);
        else if (*c < 0x20 || *c == 0x7f)
            printf("\\u%04x", *c);
        else if (size == 0)
            fputs("\\ufffd", stdout);
        else
            fwrite(c, 1, size, stdout);
        c += size ? size : 1;
    }
    putchar('"');
}

static void json_link(uint64_t link, uint64_t position)
{
    fputs(",\"link\":", stdout);
    if (link == 0)
        fputs("null", stdout);
    else
        printf("%lld", (long long)position - (long long)link);
}

static void json_entry(const struct image *image, const struct fates *fates, uint64_t position, bool *comma)
{
    struct tag tag = rule_tag(&image->log, position);
    enum fate fate = fates->entries[position - 7 * image->log.start];
    uint8_t block[64];

    if (tag.kind == TAG_NOTHING && !tag.why)
        return;
    printf("%s\n   {\"position\":%llu,\"kind\":\"%s\"", *comma ? "," : "", (number)position, kinds[tag.kind]);
    *comma = true;
    if (tag.kind == TAG_NOTHING) {
        if (tag.torn)
            printf(",\"torn\":true,\"home\":%llu,\"first\":%llu", (number)tag.home, (number)(position - tag.back));
        fputs(",\"why\":", stdout);
        json_string(tag.why);
    } else {
        printf(",\"home\":%llu,\"first\":%llu", (number)tag.home, (number)(position - tag.back));
        if (tag.kind == TAG_CLOSING) {
            printf(",\"entries\":%llu", (number)tag.count);
            json_link(tag.link, position);
        }
        printf(",\"comes_back\":%s", fate == FATE_BACK ? "true" : fate == FATE_NOT_KNOWN ? "null" : "false");
        if (fate != FATE_BACK) {
            fputs(",\"why\":", stdout);
            json_string(fate_text(fate));
        }
        fputs(",\"block\":\"", stdout);
        rule_block(&image->log, position, block);
        print_hex(block, 64);
        putchar('"');
    }
    putchar('}');
}

static void json_slot(const struct image *image, const struct fates *fates, size_t slot)
{
    const char *hole = image_hole(image, slot);
    uint64_t name = rule_number(rule_slot(&image->log, slot) + 2, 6);
    bool comma = false;
    size_t k;

    printf("%s\n  {\"slot\":%lu,", slot ? "," : "", (unsigned long)slot);
    if (hole) {
        if (slot < image->slots_read && rule_loose(&image->log, slot))
            printf("\"torn\":%lu,", (unsigned long)rule_loose(&image->log, slot));
        fputs("\"hole\":", stdout);
        json_string(hole);
    } else {
        printf("\"group\":%llu,\"entries\":[", (number)name);
        for (k = 0; k < 7; k++)
            json_entry(image, fates, 7 * name + k, &comma);
        putchar(']');
    }
    putchar('}');
}

static void json_commit(const struct image *image, const struct rule_commit *commit, size_t rank)
{
    uint64_t position;
    bool comma = false;

    printf("%s\n  {\"first\":%llu,\"closing\":%llu,\"entries\":%llu", rank ? "," : "", (number)commit->first,
           (number)commit->closing, (number)commit->count);
    json_link(commit->link, commit->closing);
    fputs(",\"homes\":[", stdout);
    for (position = commit->first; position <= commit->closing; position++)
        if (image_belongs(image, commit, position)) {
            printf("%s%llu", comma ? "," : "", (number)rule_tag(&image->log, position).home);
            comma = true;
        }
    fputs("]}", stdout);
}

/* The value that an opening gives a home; text: each byte that is no printable ASCII is a dot. */
static void json_home(const struct image *image, const struct fates *fates, size_t home, bool *comma)
{
    uint8_t block[64];
    char text[65];
    size_t i;

    image_home(image, fates, home, block);

    for (i = 0; i < 64; i++)
        text[i] = block[i] >= 0x20 && block[i] < 0x7f ? (char)block[i] : '.';
    text[64] = '\0';
    printf("%s\n  {\"home\":%lu,\"from\":", *comma ? "," : "", (unsigned long)home);
    *comma = true;
    if (fates->newest[home])
        printf("%llu", (number)(fates->newest[home] - 1));
    else
        fputs("null", stdout);
    fputs(",\"block\":\"", stdout);
    print_hex(block, 64);
    fputs("\",\"text\":", stdout);
    json_string(text);
    putchar('}');
}

/* The homes that are known, and what those with an owner hold. */
static void json_homes(const struct image *image, const struct fates *fates)
{
    bool comma = false;
    size_t i;

    fputs("\"homes\":[", stdout);
    for (i = 0; i < image->log.homes; i++)
        if (image_knows(image, fates, i, 1))
            json_home(image, fates, i, &comma);
    fputs("],\n ", stdout);
    json_units(image, fates);
    fputs(",\n \"rights\":", stdout);
    json_rights(image, fates);
}

static void json_header(const struct image *image, const struct fates *fates)
{
    static const char *const others[] = {"older", "same", "unwritten", "torn"};
    const struct rule_log *log = &image->log;
    size_t missing = 7 * (log->groups - image->slots_read);

    fputs("{\"image\":", stdout);
    json_string(image->path);
    printf(",\"bytes\":%llu,\"dump\":", (number)image->file_size);
    if (image->dump)
        printf("{\"base\":%llu,\"header_at\":%u,\"other_header\":\"%s\"}", (number)image->base, 32 * image->copy,
               others[image->the_other]);
    else
        fputs("null", stdout);
    fputs(",\n ", stdout);
    json_not_read(image, fates);
    printf("\n \"header\":{\"fits\":%s,\"start\":%llu,\"start_from\":\"%s\",\"groups\":%lu,\"homes\":%lu,\"worn_out\":%s},\n "
           "\"places\":{\"committed\":%lu,\"others\":%lu,\"torn\":%lu,\"unused\":%lu,\"not_read\":%lu},\n ",
           image->header_fits ? "true" : "false", (number)log->start, image->start_from, (unsigned long)log->groups,
           (unsigned long)log->homes, image_worn_out(image) ? "true" : "false", (unsigned long)fates->committed,
           (unsigned long)fates->others, (unsigned long)fates->torn,
           (unsigned long)(7 * log->groups - fates->committed - fates->others - fates->torn - missing), (unsigned long)missing);
}

static void json_stop(const struct image *image, const struct rule_walk *walk)
{
    static const char *const stops[] = {"end", "incomplete", "link"};
    char stop[200];

    describe_stop(image, walk, stop, sizeof stop);
    printf("\"stop\":{\"kind\":\"%s\",\"position\":", stops[walk->stop]);
    if (walk->stop == STOP_END)
        fputs("null", stdout);
    else
        printf("%llu", (number)walk->failed.closing);
    fputs(",\"why\":", stdout);
    json_string(stop);
    printf(",\"unreached\":%lu},\n ", (unsigned long)walk->unreached);
}

void print_json(const struct image *image, const struct rule_walk *walk, const struct fates *fates)
{
    size_t i;

    json_header(image, fates);
    fputs("\"slots\":[", stdout);
    for (i = 0; i < image->log.groups; i++)
        json_slot(image, fates, i);
    fputs("],\n \"commits\":[", stdout);
    for (i = 0; i < walk->commit_count; i++)
        json_commit(image, &walk->commits[i], i);
    fputs("],\n ", stdout);
    json_stop(image, walk);
    json_homes(image, fates);
    fputs(",\n \"damage\":[", stdout);
    for (i = 0; i < image->note_count; i++) {
        fputs(i ? ",\n  " : "\n  ", stdout);
        json_string(image->notes[i]);
    }
    puts("]}");
}
