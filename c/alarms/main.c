/* Lists the open alarms of images, the gravest first. */
#include <stdio.h>
#include <stdlib.h>
#include <string.h>

#include "common/command.h"
#include "common/homes.h"
#include "common/records.h"
#include "kagutin/programs.h"

static const char help[] =
    "usage: kagutin alarms [--csv] [--base N] IMAGE..\n"
    "Lists the open alarms of images and of raw dumps of a serial FRAM, the gravest of each at the top: the lowest class,\n"
    "then the earliest second, then the lowest identity.\n"
    "  --csv      one row an alarm: image, rank, identity, class, second; an image without has a row with a note\n"
    "  --base N   where the store begins in dumps (0)\n"
    "  -h, --help, --version\n"
    "The images stay as they are, and rights are not asked for. Status: 0 done, 1 homes 24 to 29 hold no list of alarms,\n"
    "2 wrong options, 3 an image cannot be read; the others are listed all the same, and what was not read stands among them.\n";

static int compare(const void *first, const void *second)
{
    const struct alarm_record *one = (const struct alarm_record *)first, *other = (const struct alarm_record *)second;

    return alarm_is_graver(one, other) ? -1 : alarm_is_graver(other, one);
}

/* In quotes where CSV needs them. */
static void print_name(const char *path)
{
    if (!strpbrk(path, ",\"\r\n")) {
        fputs(path, stdout);
        return;
    }
    putchar('"');
    for (; *path; path++)
        printf(*path == '"' ? "\"\"" : "%c", *path);
    putchar('"');
}

static void print_csv(const char *path, const struct alarms_record *alarms)
{
    size_t i;

    if (alarms->count == 0) {
        print_name(path);
        puts(",,,,,no alarm open");
    }
    for (i = 0; i < alarms->count; i++) {
        print_name(path);
        printf(",%lu,%u,%u,%lu,\n", (unsigned long)i + 1, alarms->open[i].identity, alarms->open[i].alarm_class,
               (unsigned long)alarms->open[i].second);
    }
}

static void print_text(const char *path, const struct alarms_record *alarms)
{
    size_t i;

    if (alarms->count == 0) {
        printf("%s: no alarm open\n", path);
        return;
    }
    printf("%s: %lu alarm%s open, gravest: alarm %u, class %u, since second %lu\n", path, (unsigned long)alarms->count,
           alarms->count == 1 ? "" : "s", alarms->gravest.identity, alarms->gravest.alarm_class,
           (unsigned long)alarms->gravest.second);
    puts("  identity  class      second");
    for (i = 0; i < alarms->count; i++)
        printf("  %8u  %5u  %10lu\n", alarms->open[i].identity, alarms->open[i].alarm_class,
               (unsigned long)alarms->open[i].second);
}

/* What could not be read stands among the others, too, and not on standard error alone. */
static void tell_unread(const char *path, const char *why, bool csv)
{
    size_t length = strlen(path);

    command_say("%s", why);
    if (strncmp(why, path, length) == 0 && strncmp(why + length, ": ", 2) == 0)
        why += length + 2;
    if (!csv) {
        printf("%s: NOT READ: %s\n", path, why);
        return;
    }
    print_name(path);
    fputs(",,,,,", stdout);
    fputs("\"not read: ", stdout);
    for (; *why; why++)
        printf(*why == '"' ? "\"\"" : "%c", *why);
    puts("\"");
}

static int list(const char *path, uint64_t base, bool csv)
{
    struct alarms_record alarms;
    struct homes homes;
    const char *why;
    char text[160];

    if (!homes_read(&homes, path, base, false)) {
        tell_unread(path, homes.message, csv);
        return STATUS_TROUBLE;
    }
    why = homes.homes < RECORD_ALARMS_HOME + RECORD_ALARMS_HOMES ? "the image has fewer than 30 homes"
                                                                 : record_alarms(homes.blocks + 64 * RECORD_ALARMS_HOME, &alarms);
    if (why) {
        snprintf(text, sizeof text, "homes 24 to 29 hold no list of alarms: %s", why);
        snprintf(homes.message, sizeof homes.message, "%.200s: %s", path, text);
        tell_unread(path, homes.message, csv);
    } else {
        qsort(alarms.open, alarms.count, sizeof *alarms.open, compare);
        (csv ? print_csv : print_text)(path, &alarms);
    }
    homes_free(&homes);
    return why ? STATUS_REFUSED : STATUS_DONE;
}

int alarms_main(int count, char **words)
{
    int i, images = 0, status = STATUS_DONE;
    uint64_t base = 0;
    bool csv = false;

    command_start("alarms", help);
    for (i = 1; i < count; i++) {
        if (strcmp(words[i], "--csv") == 0)
            csv = true;
        else if (command_base(words[i], words[i + 1], &base))
            i++;
        else if (!command_option(words[i]))
            words[images++] = words[i];
    }
    if (images == 0)
        command_quit(STATUS_USAGE, "an image is expected");
    if (csv)
        puts("image,rank,identity,class,second,note");
    for (i = 0; i < images; i++) {
        int got = list(words[i], base, csv);

        if (got > status)
            status = got;
    }
    return command_end(status);
}
