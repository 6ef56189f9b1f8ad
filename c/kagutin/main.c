/*
 * One program with subcommands. Called by the name of one of them, as through a
 * link, it is that subcommand. "--option=value" becomes two words here, for all.
 */
#include "programs.h"

#include <stdio.h>
#include <stdlib.h>
#include <string.h>

#include "common/command.h"

static const struct program {
    const char *name, *what;
    int (*run)(int count, char **words);
    const char *flags; /* options without a value, each followed by a blank; null: it takes "--option=value" itself */
} programs[] = {
    {"make", "makes an empty image", make_main, ""},
    {"inspect", "prints what an image holds, down to its entries", inspect_main, "--json "},
    {"wear", "prints the wear sheet of images", wear_main, NULL},
    {"bands", "sets, shows and looks up the table of depth bands", bands_main, ""},
    {"alarms", "lists the open alarms and the gravest", alarms_main, "--csv "},
    {"rights", "shows, sets and clears the list of rights", rights_main, ""},
    {"gauges", "compares two lists of levels", gauges_main, "--brief "},
    {"inflow", "bounds the inflow of a pit", inflow_main, ""},
    {"convert", "makes a dump of a serial FRAM from an image, or back", convert_main, ""},
    {"export", "writes the homes of an image as JSON, CSV or hex", export_main, ""},
    {"import", "makes a new image from exported homes", import_main, ""},
    {"station", "runs a pump station that loses power", station_main, "--csv --keep-cut --verbose --go-on "},
};

enum { PROGRAMS = sizeof programs / sizeof *programs };

static const char help[] = "usage: kagutin COMMAND [OPTION..] [WORD..]\n"
                           "       kagutin help [COMMAND], -h, --help, --version\n"
                           "Works on images of a Kagutin store and on raw dumps of a serial FRAM that holds one.\n";

static void print_help(void)
{
    size_t i;

    fputs(help, stdout);
    for (i = 0; i < PROGRAMS; i++)
        printf("  %-8s %s\n", programs[i].name, programs[i].what);
    puts("'kagutin COMMAND --help' tells more; each has a manual page, kagutin-COMMAND.\n"
         "Status of all: 0 done, 1 refused, damaged or different, 2 wrong options, 3 a file cannot be read or written.");
    exit(command_end(STATUS_DONE));
}

static const struct program *find(const char *name)
{
    size_t i;

    for (i = 0; i < PROGRAMS; i++)
        if (strcmp(name, programs[i].name) == 0)
            return &programs[i];
    return NULL;
}

static bool is_flag(const struct program *program, const char *word, size_t size)
{
    const char *at = program->flags;

    for (; *at; at += strcspn(at, " ") + 1)
        if (strcspn(at, " ") == size && strncmp(at, word, size) == 0)
            return true;
    return false;
}

/* Words behind "--" are no options: a file's name that begins with '-' gets its folder. Free the names after use. */
static char *take_names(char **words, int count, char **split, int *filled)
{
    size_t room = 1;
    char *names, *at;
    int i;

    for (i = 0; i < count; i++)
        room += strlen(words[i]) + 3;
    names = at = (char *)malloc(room);
    if (!names)
        command_quit(STATUS_TROUBLE, "out of memory");
    for (i = 0; i < count; i++) {
        split[(*filled)++] = at;
        at += sprintf(at, "%s%s", words[i][0] == '-' ? "./" : "", words[i]) + 1;
    }
    return names;
}

/* Cuts "--option=value" in two, and runs. */
static int run(const struct program *program, int count, char **words)
{
    char **split = (char **)calloc(2 * (size_t)count + 1, sizeof *split), *names = NULL;
    int i, status, filled = 0;

    command_start(program->name, "");
    if (!split)
        command_quit(STATUS_TROUBLE, "out of memory");
    split[filled++] = words[0];
    for (i = 1; i < count && !(program->flags && strcmp(words[i], "--") == 0); i++) {
        size_t size = strcspn(words[i], "=");
        bool both = program->flags && strncmp(words[i], "--", 2) == 0 && words[i][size];

        if (both && is_flag(program, words[i], size))
            command_quit(STATUS_USAGE, "%.*s takes no value", (int)size, words[i]);
        split[filled++] = words[i];
        if (!both)
            continue;
        words[i][size] = '\0';
        split[filled++] = words[i] + size + 1;
    }
    if (i < count)
        names = take_names(words + i + 1, count - i - 1, split, &filled);
    status = program->run(filled, split);
    free(names);
    free(split);
    return status;
}

int main(int count, char **words)
{
    const char *slash = count ? strrchr(words[0], '/') : NULL;
    const struct program *program = count ? find(slash ? slash + 1 : words[0]) : NULL;
    static char help_option[] = "--help";
    char *asked[3];

    if (program)
        return run(program, count, words);
    command_start("kagutin", help);
    if (count < 2)
        command_quit(STATUS_USAGE, "a command is expected");
    if (strcmp(words[1], "--help") == 0 || strcmp(words[1], "-h") == 0 || (strcmp(words[1], "help") == 0 && count == 2))
        print_help();
    command_option(words[1]);
    if (strcmp(words[1], "help") == 0) {
        program = find(words[2]);
        if (!program)
            command_quit(STATUS_USAGE, "unknown command '%s'", words[2]);
        asked[0] = words[2];
        asked[1] = help_option;
        asked[2] = NULL;
        return run(program, 2, asked);
    }
    program = find(words[1]);
    if (!program)
        command_quit(STATUS_USAGE, "unknown command '%s'", words[1]);
    return run(program, count - 1, words + 1);
}
