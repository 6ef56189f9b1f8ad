/* Prints the least and the most inflow of a pit from its float switches. */
#include <errno.h>
#include <inttypes.h>
#include <stdio.h>
#include <stdlib.h>
#include <string.h>

#include "common/command.h"
#include "kagutin/programs.h"
#include "kagutin_inflow.h"

struct range {
    uint64_t low, high;
};

struct options {
    uint64_t area;
    struct range before, after, pumped;
};

static const char help[] =
    "usage: kagutin inflow --area CM2 [--pumped VOLUME] BEFORE AFTER\n"
    "Prints the least and the most inflow of a pit between two moments: area × change of depth + pumped.\n"
    "  BEFORE, AFTER      the depth at both moments in mm, 0 to 65535: LOW..HIGH, such as two floats give, or one value\n"
    "  --area CM2         the pit's area in cm², 1 to 1000000\n"
    "  --pumped VOLUME    what was pumped in between: LOW..HIGH or one value, in cm² × mm, 0 to 4294967295 (0);\n"
    "                     10000 are one litre\n"
    "  -h, --help, --version\n"
    "Status: 0 done, 1 a range has its low end above its high end, 2 wrong options, 3 the output cannot be written.\n";

/* One whole number from 0 to `most`, up to where `end` then points. */
static uint64_t read_number(const char *what, const char *text, const char **end, uint64_t most)
{
    unsigned long long number;
    char *rest;

    errno = 0;
    number = strtoull(text, &rest, 10);
    if (text[0] < '0' || text[0] > '9' || errno || number > most)
        command_quit(STATUS_USAGE, "%s takes whole numbers from 0 to %" PRIu64 ", not '%s'", what, most, text);
    *end = rest;
    return number;
}

static struct range read_range(const char *what, const char *text, uint64_t most)
{
    struct range range;
    const char *end;

    range.low = range.high = read_number(what, text, &end, most);
    if (strncmp(end, "..", 2) == 0)
        range.high = read_number(what, end + 2, &end, most);
    if (*end)
        command_quit(STATUS_USAGE, "%s takes LOW..HIGH or one value, not '%s'", what, text);
    return range;
}

static struct options read_options(int count, char **words)
{
    struct options options = {0, {0, 0}, {0, 0}, {0, 0}};
    int i, depths = 0;
    unsigned has_area = 0;

    for (i = 1; i < count; i++) {
        if (strcmp(words[i], "--area") == 0) {
            options.area = command_number("--area", words[++i], 1, KAGUTIN_MAX_AREA);
            has_area = 1;
        } else if (strcmp(words[i], "--pumped") == 0) {
            i++;
            options.pumped = read_range("--pumped", command_value("--pumped", words[i]), UINT32_MAX);
        } else if (command_option(words[i])) {
            continue;
        } else if (depths == 2) {
            command_quit(STATUS_USAGE, "two depth ranges are expected; '%s' is a third", words[i]);
        } else {
            *(depths ? &options.after : &options.before) = read_range(depths ? "AFTER" : "BEFORE", words[i], UINT16_MAX);
            depths++;
        }
    }
    if (!has_area || depths != 2)
        command_quit(STATUS_USAGE, "%s",
                     has_area ? "two depth ranges are expected, before and after" : "the pit's area is missing: --area");
    return options;
}

static void refuse_range(const char *what, struct range range)
{
    if (range.low > range.high)
        command_quit(STATUS_REFUSED, "%s: the low end %" PRIu64 " is above the high end %" PRIu64, what, range.low, range.high);
}

/* Litres with four digits behind the point: a volume exactly. */
static void print_volume(const char *name, int64_t volume)
{
    uint64_t size = volume < 0 ? (uint64_t)-volume : (uint64_t)volume;
    char litres[32];

    snprintf(litres, sizeof litres, "%s%" PRIu64 ".%04" PRIu64, volume < 0 ? "-" : "", size / KAGUTIN_VOLUMES_PER_LITRE,
             size % KAGUTIN_VOLUMES_PER_LITRE);
    printf("%-5s inflow %14s litres %14" PRId64 " cm² × mm\n", name, litres, volume);
}

int inflow_main(int count, char **words)
{
    struct kagutin_inflow_bounds bounds;
    struct options options;

    command_start("inflow", help);
    options = read_options(count, words);
    bounds =
        kagutin_inflow(options.area, (uint16_t)options.before.low, (uint16_t)options.before.high, (uint16_t)options.after.low,
                       (uint16_t)options.after.high, (uint32_t)options.pumped.low, (uint32_t)options.pumped.high);

    if (bounds.code) {
        refuse_range("depth before", options.before);
        refuse_range("depth after", options.after);
        refuse_range("pumped volume", options.pumped);
        command_quit(STATUS_REFUSED, "the call answers %" PRIu64, bounds.code);
    }
    print_volume("least", bounds.least);
    print_volume("most", bounds.most);
    return command_end(STATUS_DONE);
}
