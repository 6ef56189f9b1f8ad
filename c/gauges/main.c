/* Compares two CSV files of levels minute by minute: a report, its four counts, and a plot. */
#include <stdio.h>
#include <stdlib.h>
#include <string.h>

#include "common/command.h"
#include "common/day.h"
#include "common/page_file.h"
#include "kagutin/programs.h"
#include "kagutin_gauges.h"
#include "levels_plot.h"
#include "readings.h"

enum { STATUS_DIFFERS = STATUS_REFUSED };

struct options {
    const char *paths[2], *plot;
    int path_count;
    bool brief;
    uint16_t tolerance;
};

static const char help[] =
    "usage: kagutin gauges [--tolerance MM] [--brief] [--plot FILE.svg] FIRST.csv SECOND.csv\n"
    "Compares two lists of levels of one pit, such as a pressure cell's and an echo sounder's, minute by minute.\n"
    "A row of a file is time,millimetres. All times are of one kind: minutes up to 65535, clock times HH:MM, or days and\n"
    "times YYYY-MM-DDTHH:MM, which are compared day by day, a report for each. They rise; a list, or a day of it, has at\n"
    "most 1440 rows. A heading without digits, blank lines and lines that begin with # are passed over.\n"
    "  --tolerance MM   millimetres that agreeing levels may lie apart, 0 to 65535 (10)\n"
    "  --brief          leaves the agreeing minutes out of the report\n"
    "  --plot FILE.svg  draws both lists, and where they differ; of several days each as a file with the day in its name\n"
    "  -h, --help, --version\n"
    "Status: 0 no minute differs, 1 a minute differs, 2 wrong options, 3 a file cannot be read or written, has a bad row\n"
    "or none.\n";

static struct options read_options(int count, char **words)
{
    struct options options = {{NULL, NULL}, NULL, 0, false, 10};
    int i;

    for (i = 1; i < count; i++) {
        if (strcmp(words[i], "--brief") == 0)
            options.brief = true;
        else if (strcmp(words[i], "--tolerance") == 0)
            options.tolerance = (uint16_t)command_number("--tolerance", words[++i], 0, UINT16_MAX);
        else if (strcmp(words[i], "--plot") == 0)
            options.plot = command_value("--plot", words[++i]);
        else if (command_option(words[i]))
            continue;
        else if (options.path_count == 2)
            command_quit(STATUS_USAGE, "two lists are compared; '%s' is a third", words[i]);
        else
            options.paths[options.path_count++] = words[i];
    }
    if (options.path_count != 2)
        command_quit(STATUS_USAGE, "two lists are compared; %s given", options.path_count ? "one is" : "none is");
    return options;
}

/* ---- one day ---- */

/* Two lists of one day, and what the library says of them. */
struct compared {
    struct readings lists[2];
    uint8_t report[2 * KAGUTIN_LINE_SIZE * KAGUTIN_MAX_READINGS];
    struct kagutin_comparison counts;
    size_t lines;
};

static void compare(struct compared *compared, uint16_t tolerance)
{
    static uint8_t strips[2][KAGUTIN_READING_SIZE * KAGUTIN_MAX_READINGS];
    struct kagutin_comparison *counts = &compared->counts;
    size_t sizes[2], i;

    for (i = 0; i < 2; i++)
        sizes[i] = readings_strip(&compared->lists[i], strips[i]);
    *counts =
        kagutin_compare_gauges(strips[0], sizes[0], strips[1], sizes[1], compared->report, sizeof compared->report, tolerance);
    if (counts->code)
        command_quit(STATUS_TROUBLE, "the comparison answers %llu", (unsigned long long)counts->code);
    compared->lines = (size_t)(counts->agreeing + counts->differing + counts->only_first + counts->only_second);
}

static const char *kind_name(unsigned kind)
{
    static const char *const names[] = {"", "agreeing", "differing", "only first", "only second"};

    return names[kind <= KAGUTIN_ONLY_SECOND ? kind : 0];
}

static void print_report(const struct compared *compared, bool brief)
{
    const struct readings *lists = compared->lists;
    char time[TIME_TEXT];
    size_t i;

    printf("%s  kind         first mm  second mm  apart\n", lists[0].kind == TIME_MINUTE ? "minute" : "  time");
    for (i = 0; i < compared->lines; i++) {
        const uint8_t *line = compared->report + i * KAGUTIN_LINE_SIZE;
        uint16_t minute = (uint16_t)(line[0] | line[1] << 8), first = 0, second = 0;
        bool in_first = readings_at(&lists[0], minute, &first), in_second = readings_at(&lists[1], minute, &second);

        if (brief && line[2] == KAGUTIN_AGREEING)
            continue;
        time_write(lists[0].kind, minute, time);
        printf("%6s  %-11s", time, kind_name(line[2]));
        if (in_first)
            printf("  %8u", (unsigned)first);
        else
            printf("  %8s", "-");
        if (in_second)
            printf("  %9u", (unsigned)second);
        else
            printf("  %9s", "-");
        if (in_first && in_second)
            printf("  %5u", (unsigned)(first < second ? second - first : first - second));
        putchar('\n');
    }
}

static void print_counts(const struct kagutin_comparison *counts, const char *of, uint16_t tolerance)
{
    printf("%sagreeing %llu, differing %llu, only first %llu, only second %llu; %llu different minutes, tolerance %u mm\n", of,
           (unsigned long long)counts->agreeing, (unsigned long long)counts->differing, (unsigned long long)counts->only_first,
           (unsigned long long)counts->only_second,
           (unsigned long long)(counts->agreeing + counts->differing + counts->only_first + counts->only_second),
           (unsigned)tolerance);
}

static void draw(const struct options *options, const struct compared *compared, const char *path, const char *day)
{
    struct levels_plot plot = {&compared->lists[0], &compared->lists[1], compared->report,
                               compared->lines,     options->tolerance,  day};
    struct page_file page;

    if (!page_create(&page, path, LEVELS_PLOT_MARK))
        command_quit(STATUS_TROUBLE, "%s: cannot be created: %s", path, page.why);
    levels_plot_write(&plot, page.file);
    if (!page_finish(&page))
        command_quit(STATUS_TROUBLE, "%s: cannot be written: %s", path, page.why);
}

/* FILE.svg as FILE-YYYY-MM-DD.svg. */
static void draw_day(const struct options *options, const struct compared *compared, const char *day)
{
    size_t length = strlen(options->plot), size = length + DAY_TEXT + 1;
    const char *dot = strrchr(options->plot, '.'), *slash = strrchr(options->plot, '/');
    char *path = (char *)malloc(size);

    if (!path)
        command_quit(STATUS_TROUBLE, "out of memory");
    if (dot && (!slash || dot > slash))
        length = (size_t)(dot - options->plot);
    snprintf(path, size, "%.*s-%s%s", (int)length, options->plot, day, options->plot + length);
    draw(options, compared, path, day);
    free(path);
}

/* ---- all days ---- */

/* The next day of either file. */
static bool next_day(const struct readings_file *files, int64_t after, int64_t *day)
{
    int64_t days[2];
    bool has_first = readings_next_day(&files[0], after, &days[0]), has_second = readings_next_day(&files[1], after, &days[1]);

    *day = has_first && (!has_second || days[0] < days[1]) ? days[0] : days[1];
    return has_first || has_second;
}

static void add(struct kagutin_comparison *sum, const struct kagutin_comparison *counts)
{
    sum->agreeing += counts->agreeing;
    sum->differing += counts->differing;
    sum->only_first += counts->only_first;
    sum->only_second += counts->only_second;
}

/* Compares day by day; true if a minute differs. */
static bool compare_days(const struct options *options, const struct readings_file *files)
{
    static struct compared compared;
    struct kagutin_comparison sum = {0, 0, 0, 0, 0};
    int64_t day, other;
    bool several = next_day(files, -1, &day) && next_day(files, day, &other), more = true;
    char text[DAY_TEXT] = "";

    for (; more; more = next_day(files, day, &day)) {
        readings_of_day(&files[0], day, &compared.lists[0]);
        readings_of_day(&files[1], day, &compared.lists[1]);
        compare(&compared, options->tolerance);
        if (files[0].kind == TIME_DAY) {
            day_write(day, text);
            puts(text);
        }
        print_report(&compared, options->brief);
        print_counts(&compared.counts, "", options->tolerance);
        add(&sum, &compared.counts);
        if (options->plot && several)
            draw_day(options, &compared, text);
        else if (options->plot)
            draw(options, &compared, options->plot, text);
    }
    if (several)
        print_counts(&sum, "all days: ", options->tolerance);
    return sum.differing != 0;
}

int gauges_main(int count, char **words)
{
    struct readings_file files[2];
    struct options options;
    char trouble[512];
    bool differs;
    size_t i;

    command_start("gauges", help);
    options = read_options(count, words);
    for (i = 0; i < 2; i++)
        if (!readings_load(&files[i], options.paths[i], trouble, sizeof trouble))
            command_quit(STATUS_TROUBLE, "%s", trouble);
    if (files[0].kind != files[1].kind)
        command_quit(STATUS_TROUBLE, "%s has %s, %s %s", files[0].path, time_kind_name(files[0].kind), files[1].path,
                     time_kind_name(files[1].kind));
    differs = compare_days(&options, files);
    readings_free(&files[0]);
    readings_free(&files[1]);
    return command_end(differs ? STATUS_DIFFERS : STATUS_DONE);
}
