/*
 * Prints an image: its header, each group with its entries, the transactions
 * that the commit rule finds and why its walk stopped, the homes and what the
 * list of rights says. Written from the format alone; it does not use the
 * library and changes nothing.
 */
#include "inspect.h"

#include <stdarg.h>
#include <stdio.h>
#include <stdlib.h>
#include <string.h>

#include "kagutin/programs.h"

static const char help[] =
    "usage: kagutin inspect [--json] [--groups N] [--homes N] [--start N] [--base N] IMAGE\n"
    "Prints the header of an image, its groups and entries, which transactions the commit rule finds, each home's value as\n"
    "an opening would give it, and who may touch which home. Changes nothing.\n"
    "  --json      the same as JSON\n"
    "  --groups N  groups of the log, 4 to 1024, if the header is damaged\n"
    "  --homes N   home blocks, 1 to 65535 (default: as the header or the file's size says)\n"
    "  --start N   lowest live group number (default: the header's, or a guess from the groups)\n"
    "  --base N    where the store begins in a dump (0)\n"
    "  -h, --help, --version\n"
    "IMAGE may also be a raw dump of a serial FRAM; of its two headers the newer whole one counts.\n"
    "Of a file that is cut off what was not read is told as such.\n"
    "Status: 0 the image is sound, 1 it is damaged, or homes of bands, pumps or alarms hold something else, 2 wrong\n"
    "options, 3 the file cannot be read.\n";

void inspect_say(const char *format, ...)
{
    char message[512];
    va_list arguments;

    va_start(arguments, format);
    vsnprintf(message, sizeof message, format, arguments);
    va_end(arguments);
    command_say("%s", message);
}

void inspect_quit(int status, const char *format, ...)
{
    char message[512];
    va_list arguments;

    va_start(arguments, format);
    vsnprintf(message, sizeof message, format, arguments);
    va_end(arguments);
    command_quit(status, "%s", message);
}

static struct options read_options(int count, char **words)
{
    struct options options = {NULL, false, NOT_GIVEN, NOT_GIVEN, NOT_GIVEN, 0};
    int i;

    for (i = 1; i < count; i++) {
        if (strcmp(words[i], "--json") == 0)
            options.json = true;
        else if (strcmp(words[i], "--groups") == 0)
            options.groups = command_number("--groups", words[++i], 4, MAX_GROUPS);
        else if (strcmp(words[i], "--homes") == 0)
            options.homes = command_number("--homes", words[++i], 1, MAX_HOMES);
        else if (strcmp(words[i], "--start") == 0)
            options.start = command_number("--start", words[++i], 0, MAX_START);
        else if (command_base(words[i], words[i + 1], &options.base))
            i++;
        else if (command_option(words[i]))
            continue;
        else if (options.path)
            command_quit(STATUS_USAGE, "one image at a time: '%s' and '%s'", options.path, words[i]);
        else
            options.path = words[i];
    }
    if (!options.path)
        command_quit(STATUS_USAGE, "an image is expected");
    return options;
}

int inspect_main(int count, char **words)
{
    static struct image image;
    struct options options;
    struct rule_walk walk;
    struct fates fates;

    command_start("inspect", help);
    options = read_options(count, words);
    image_read(&image, &options);
    image_check_header(&image);
    image_choose_shape(&image, &options);
    image_check(&image);
    if (!rule_walk(&image.log, &walk) || !fates_find(&fates, &image, &walk))
        inspect_quit(STATUS_TROUBLE, "out of memory");
    units_check(&image, &fates);
    (options.json ? print_json : print_text)(&image, &walk, &fates);
    fates_free(&fates);
    rule_free(&walk);
    free(image.bytes);
    return command_end(image.note_count ? STATUS_DAMAGED : STATUS_DONE);
}
