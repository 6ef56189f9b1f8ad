/* Writes the homes of an image or a dump as text. */
#include <stdio.h>
#include <string.h>

#include "blocks.h"
#include "common/command.h"
#include "common/homes.h"
#include "common/records.h"
#include "kagutin/programs.h"

static const char help[] =
    "usage: kagutin export [--as KIND] [--base N] IMAGE\n"
    "Prints the homes of an image, or of a raw dump of a serial FRAM, as an opening leaves them; those that are zeros are\n"
    "left out. A worn-out image is read like any other, and so is one of the older format (mark 50 48): 'kagutin import'\n"
    "makes a new image of what is printed.\n"
    "  --as KIND  json, csv or hex (json)\n"
    "  --base N   where the store begins in a dump (0)\n"
    "  -h, --help, --version\n"
    "Status: 0 done, 2 wrong options, 3 the file cannot be read, or is damaged.\n";

static bool is_zero(const uint8_t *block)
{
    static const uint8_t zeros[BLOCK_SIZE] = {0};

    return memcmp(block, zeros, BLOCK_SIZE) == 0;
}

/* Says which blocks have changed since they were sealed; they are printed all the same. */
static void check_seals(const struct homes *homes, const char *path)
{
    size_t home;

    for (home = 0; home < homes->homes; home++)
        if (record_seal_broken(home, homes->blocks + BLOCK_SIZE * home))
            command_say("note: %s: home %lu is sealed, and its checksum does not fit", path, (unsigned long)home);
}

static void print_block(const uint8_t *block, const char *between)
{
    size_t i;

    for (i = 0; i < BLOCK_SIZE; i++)
        printf("%s%02x", i ? between : "", block[i]);
}

static void print_json(const struct homes *homes)
{
    const char *comma = "";
    size_t home;

    printf("{\"groups\":%lu,\"homes\":%lu,\"blocks\":[", (unsigned long)homes->groups, (unsigned long)homes->homes);
    for (home = 0; home < homes->homes; home++) {
        const uint8_t *block = homes->blocks + BLOCK_SIZE * home;

        if (is_zero(block))
            continue;
        printf("%s\n {\"home\":%lu,\"block\":\"", comma, (unsigned long)home);
        print_block(block, "");
        fputs("\"}", stdout);
        comma = ",";
    }
    puts("\n]}");
}

/* The first line tells how many rows there are, so that a text that is cut off is noticed. */
static void print_rows(const struct homes *homes, bool csv)
{
    size_t home, count = 0;

    for (home = 0; home < homes->homes; home++)
        count += !is_zero(homes->blocks + BLOCK_SIZE * home);
    printf("# groups %lu homes %lu blocks %lu\n%s", (unsigned long)homes->groups, (unsigned long)homes->homes,
           (unsigned long)count, csv ? "home,block\n" : "");
    for (home = 0; home < homes->homes; home++) {
        const uint8_t *block = homes->blocks + BLOCK_SIZE * home;

        if (is_zero(block))
            continue;
        printf(csv ? "%lu," : "%lu: ", (unsigned long)home);
        print_block(block, csv ? "" : " ");
        putchar('\n');
    }
}

int export_main(int count, char **words)
{
    const char *path = NULL, *as = "json";
    uint64_t base = 0;
    struct homes homes;
    int i;

    command_start("export", help);
    for (i = 1; i < count; i++) {
        if (strcmp(words[i], "--as") == 0)
            as = command_value("--as", words[++i]);
        else if (command_base(words[i], words[i + 1], &base))
            i++;
        else if (command_option(words[i]))
            continue;
        else if (path)
            command_quit(STATUS_USAGE, "one image at a time: '%s' and '%s'", path, words[i]);
        else
            path = words[i];
    }
    if (!path)
        command_quit(STATUS_USAGE, "an image is expected");
    if (strcmp(as, "json") != 0 && strcmp(as, "csv") != 0 && strcmp(as, "hex") != 0)
        command_quit(STATUS_USAGE, "--as takes json, csv or hex, not '%s'", as);
    if (!homes_read(&homes, path, base, false))
        command_quit(STATUS_TROUBLE, "%s", homes.message);
    check_seals(&homes, path);
    if (strcmp(as, "json") == 0)
        print_json(&homes);
    else
        print_rows(&homes, strcmp(as, "csv") == 0);
    homes_free(&homes);
    return command_end(STATUS_DONE);
}
