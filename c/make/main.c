/* Makes an empty image. */
#include <stdio.h>
#include <string.h>

#include "common/command.h"
#include "kagutin/programs.h"
#include "kagutin_file.h"

static const char help[] = "usage: kagutin make IMAGE GROUPS HOMES\n"
                           "Makes the image of an empty store under a name that is free.\n"
                           "  GROUPS   groups of the log, 4 to 1024: seven entries each\n"
                           "  HOMES    home blocks, 1 to 65535; 30 and more have room for rights, bands, pumps and alarms\n"
                           "  -h, --help, --version\n"
                           "Status: 0 done, 2 wrong options, 3 the file cannot be made.\n";

int make_main(int count, char **words)
{
    const char *parts[3] = {NULL, NULL, NULL};
    struct kgt_file file;
    size_t groups, homes;
    int i, given = 0;

    command_start("make", help);
    for (i = 1; i < count; i++) {
        if (command_option(words[i]))
            continue;
        if (given == 3)
            command_quit(STATUS_USAGE, "one word too many: '%s'", words[i]);
        parts[given++] = words[i];
    }
    if (given != 3)
        command_quit(STATUS_USAGE, "an image, its groups and its homes are expected");
    groups = (size_t)command_number("GROUPS", parts[1], KAGUTIN_MIN_GROUPS, KAGUTIN_MAX_GROUPS);
    homes = (size_t)command_number("HOMES", parts[2], KAGUTIN_MIN_HOMES, KAGUTIN_MAX_HOMES);
    if (!kgt_file_create(&file, parts[0], groups, homes))
        command_quit(STATUS_TROUBLE, "%s", file.message);
    printf("%s: an empty store of %lu groups and %lu homes, %lu bytes\n", parts[0], (unsigned long)groups, (unsigned long)homes,
           (unsigned long)file.size);
    kgt_file_close(&file);
    return command_end(STATUS_DONE);
}
