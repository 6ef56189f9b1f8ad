#include "options.h"

#include <stdio.h>
#include <stdlib.h>
#include <string.h>

#include "common/command.h"
#include "common/day.h"
#include "kagutin.h"

static const char help[] =
    "usage: kagutin wear [--interval HOURS] [--now [IMAGE=]SECOND] [--done FILE] [--since LAST.csv] [--csv[=FILE]]\n"
    "                    [--html FILE] [--date YYYY-MM-DD] [--all] [--writer W] [--base N] IMAGE..\n"
    "Prints the wear sheet of one station's image, or of several as one fleet: for each pump its starts, run hours, the\n"
    "whole services due and the hours to the next. The pump to open first stands at the top, and before all of them what\n"
    "could not be read. IMAGE may also be a raw dump of a serial FRAM.\n"
    "  --interval HOURS       hours between two services, 1 to 1000000 (2000)\n"
    "  --now [IMAGE=]SECOND   the station's clock when the image was taken: pumps that run are counted up to it\n"
    "  --done FILE            services done, as CSV: station, pump, and run seconds, hours as in 4000h, or YYYY-MM-DD\n"
    "  --since LAST.csv       compares with the CSV of an earlier sheet: hours and starts since, pumps exchanged or reset\n"
    "  --csv                  prints the sheet as CSV, in seconds; --csv=FILE writes it to a file\n"
    "  --html FILE            writes the sheet as one HTML page with a plot\n"
    "  --date YYYY-MM-DD      the day on which the images were taken (today)\n"
    "  --all                  pumps that never started too\n"
    "  --writer W             the writer that reads, 0 to 7 (for each pump the lowest that has the right)\n"
    "  --base N               where the store begins in dumps (0)\n"
    "  -h, --help, --version\n"
    "The images stay as they are; a FILE that is there is replaced only if it is such a sheet.\n"
    "Status: 0 done, 2 wrong options, 3 a file cannot be read or written or has a bad row, or an image has no homes for\n"
    "pumps or something else in them; the others are in the sheet all the same, and with none there is no sheet.\n";

/* SECOND, or IMAGE=SECOND; the last = parts them. */
static void take_now(struct wear_options *options, char *text)
{
    char *equals = strrchr(command_value("--now", text), '=');
    struct wear_now *now = &options->now[options->now_count++];

    if (equals && !equals[1])
        command_quit(STATUS_USAGE, "--now takes IMAGE=SECOND with a second from 0 to 4294967295, not '%s'", text);
    now->second = command_number("--now", equals ? equals + 1 : text, 0, UINT64_C(0xffffffff));
    now->station = equals ? text : NULL;
    if (equals)
        *equals = '\0';
}

/* An option that takes a value; false if it is none of these. */
static bool take_value(struct wear_options *options, const char *name, char *value)
{
    if (strcmp(name, "--date") == 0 && !day_read(command_value(name, value), &options->day))
        command_quit(STATUS_USAGE, "--date takes a day as YYYY-MM-DD, not '%s'", value);
    if (strcmp(name, "--interval") == 0)
        options->hours = command_number(name, value, 1, 1000000);
    else if (strcmp(name, "--writer") == 0)
        options->writer = command_number(name, value, 0, KAGUTIN_WRITERS - 1);
    else if (strcmp(name, "--now") == 0)
        take_now(options, value);
    else if (strcmp(name, "--html") == 0)
        options->html = command_value(name, value);
    else if (strcmp(name, "--done") == 0)
        options->done = command_value(name, value);
    else if (strcmp(name, "--since") == 0)
        options->since = command_value(name, value);
    else if (strcmp(name, "--date") != 0)
        return command_base(name, value, &options->base);
    return true;
}

/* One without a value, or --csv with one, which only follows an equals sign; false if it is none of these. */
static bool take_plain(struct wear_options *options, const char *name, const char *value)
{
    if (strcmp(name, "--csv") == 0 && value)
        options->csv = command_value(name, value);
    else if (strcmp(name, "--csv") == 0)
        options->print_csv = true;
    else if (strcmp(name, "--all") == 0 && !value)
        options->all = true;
    else if (value && (strcmp(name, "--all") == 0 || strcmp(name, "--help") == 0 || strcmp(name, "--version") == 0))
        command_quit(STATUS_USAGE, "%s takes no value", name);
    else
        return false;
    return true;
}

/* One option; next is the word behind it. True if that was taken as the value. */
static bool take_option(struct wear_options *options, char *word, char *next)
{
    char *value = strchr(word, '=');

    if (value)
        *value++ = '\0';
    if (take_plain(options, word, value))
        return false;
    if (take_value(options, word, value ? value : next))
        return !value;
    command_option(word);
    return false;
}

/* A second for a station that is not among the images is a mistyped one. */
static void check_now(const struct wear_options *options)
{
    size_t i, j;

    for (i = 0; i < options->now_count; i++) {
        const char *name = options->now[i].station;

        for (j = 0; name && j < options->count; j++)
            if (wear_match(options->images[j], name) < WEAR_NO_MATCH)
                break;
        if (name && j == options->count)
            command_quit(STATUS_USAGE, "--now names '%s', which is not among the images", name);
    }
}

struct wear_options wear_read_options(int count, char **words)
{
    struct wear_options options;
    bool options_end = false;
    int i;

    command_start("wear", help);
    memset(&options, 0, sizeof options);
    options.hours = 2000;
    options.writer = WEAR_ANY_WRITER;
    options.day = day_today();
    options.images = words;
    options.now = (struct wear_now *)calloc((size_t)count + 1, sizeof *options.now);
    if (!options.now)
        command_quit(STATUS_TROUBLE, "out of memory");
    for (i = 1; i < count; i++) {
        if (options_end || words[i][0] != '-' || !words[i][1])
            options.images[options.count++] = words[i];
        else if (strcmp(words[i], "--") == 0)
            options_end = true;
        else
            i += take_option(&options, words[i], i + 1 < count ? words[i + 1] : NULL);
    }
    if (options.count == 0)
        command_quit(STATUS_USAGE, "an image is expected");
    if (options.csv && options.html && strcmp(options.csv, options.html) == 0)
        command_quit(STATUS_USAGE, "'%s' cannot be both the CSV and the page", options.csv);
    check_now(&options);
    return options;
}
