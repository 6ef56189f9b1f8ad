#include "options.h"

#include <string.h>

#include "common/command.h"

static const char help[] =
    "usage: kagutin station [--seed N] [--cuts N] [--groups N] [--homes N] [--file PATH] [--go-on] [--keep-cut]\n"
    "                       [--verbose] [--csv]\n"
    "Runs a pump station on the store, cuts its power at random and checks what each opening brings back.\n"
    "  --seed N     repeats a run (default 1)\n"
    "  --cuts N     power cuts, 1 to 1000000 (default 300)\n"
    "  --groups N   groups of the log, 4 to 1024 (default 24)\n"
    "  --homes N    home blocks, 30 to 65535 (default 48)\n"
    "  --file PATH  image file, made if missing, else gone on with; synced (default: in memory)\n"
    "  --go-on      with --file: also with an image that no station has made; its homes are written over\n"
    "  --keep-cut   with --file: stops after the last cut, before the opening, so that the image can be\n"
    "               inspected\n"
    "  --verbose    every cut on a line of its own, and every time the log is full\n"
    "  --csv        wear sheet as CSV on standard output, all else on standard error\n"
    "  -h, --help, --version\n"
    "Status: 0 every opening was right, 1 a mismatch, 2 wrong options, 3 trouble with the file or memory,\n"
    "4 the image is worn out, 130 interrupted (the report is still printed).\n";

/* Options without a value; false if this is none. */
static bool read_flag(struct station *station, const char *name)
{
    if (strcmp(name, "--csv") == 0)
        station->csv = true;
    else if (strcmp(name, "--go-on") == 0)
        station->go_on = true;
    else if (strcmp(name, "--keep-cut") == 0)
        station->keep_cut = true;
    else if (strcmp(name, "--verbose") == 0)
        station->verbose = true;
    else
        return false;
    return true;
}

static void read_value(struct station *station, const char *name, const char *value)
{
    static const char *const names[] = {"--seed", "--cuts", "--groups", "--homes", "--file"};
    size_t i;

    for (i = 0; i < 5 && strcmp(name, names[i]) != 0; i++)
        ;
    if (i == 5 && !command_option(name))
        command_quit(STATUS_USAGE, "no words are expected, only options: '%s'", name);
    switch (i) {
    case 0: station->seed = command_number(name, value, 0, UINT64_MAX); break;
    case 1: station->cuts = (unsigned long)command_number(name, value, 1, 1000000); break;
    case 2: station->groups = (size_t)command_number(name, value, KAGUTIN_MIN_GROUPS, KAGUTIN_MAX_GROUPS); break;
    case 3: station->homes = (size_t)command_number(name, value, STATION_MIN_HOMES, KAGUTIN_MAX_HOMES); break;
    default: station->path = command_value(name, value); break;
    }
}

void options_read(struct station *station, int count, char **words)
{
    int i;

    command_start("station", help);
    for (i = 1; i < count; i++)
        if (!read_flag(station, words[i])) {
            read_value(station, words[i], words[i + 1]);
            i++;
        }
    if (station->keep_cut && !station->path)
        command_quit(STATUS_USAGE, "--keep-cut goes with --file");
    if (station->go_on && !station->path)
        command_quit(STATUS_USAGE, "--go-on goes with --file");
}
