/* Sets the table of depth bands of an image from a text file, shows it, and looks a depth up. */
#include <stdio.h>
#include <stdlib.h>
#include <string.h>

#include "common/command.h"
#include "common/records.h"
#include "common/work.h"
#include "kagutin/programs.h"
#include "kagutin_units.h"
#include "table.h"

static const char help[] =
    "usage: kagutin bands set [--writer W] IMAGE TABLE.txt\n"
    "       kagutin bands show [--writer W] [--base N] IMAGE\n"
    "       kagutin bands at [--writer W] [--base N] IMAGE MM\n"
    "Which pumps run at which depth, as the table in homes 12 to 14 of an image.\n"
    "  set    puts the table of a text file in, as one transaction: a power cut leaves this table or the one before\n"
    "  show   prints the table as such a file; also of a raw dump of a serial FRAM\n"
    "  at     prints the row of a depth in mm, 0 to 9999\n"
    "A line of the file is: from to pumps, in mm, both included; # begins a comment. Rows may stand in any order; every\n"
    "millimetre from 0 to 9999 lies in exactly one of at most 32, and pumps go from 0 to 4.\n"
    "  --writer W   the writer that stores or reads, 0 to 7 (the lowest that has the right)\n"
    "  --base N     where the store begins in a dump (0)\n"
    "  -h, --help, --version\n"
    "show and at leave the image as it is, and so does a set that is refused.\n"
    "Status: 0 done, 1 the table is refused, or there is none, 2 wrong options, 3 a file cannot be read or written or has a\n"
    "bad line.\n";

enum { ANY_WRITER = KAGUTIN_WRITERS };

struct options {
    const char *words[3]; /* command, image, and a table or a depth */
    int count;
    uint64_t writer, base;
};

static struct options read_options(int count, char **words)
{
    struct options options = {{NULL, NULL, NULL}, 0, ANY_WRITER, 0};
    int i;

    for (i = 1; i < count; i++) {
        if (strcmp(words[i], "--writer") == 0)
            options.writer = command_number("--writer", words[++i], 0, KAGUTIN_WRITERS - 1);
        else if (command_base(words[i], words[i + 1], &options.base))
            i++;
        else if (command_option(words[i]))
            continue;
        else if (options.count == 3)
            command_quit(STATUS_USAGE, "one word too many: '%s'", words[i]);
        else
            options.words[options.count++] = words[i];
    }
    if (options.count == 0)
        command_quit(STATUS_USAGE, "set, show or at is expected");
    return options;
}

/* ---- who may ---- */

/* The writer that was asked for or has the right to the three homes; ends the program if that is nobody. */
static uint64_t choose_writer(const struct options *options, struct kagutin *store, size_t homes, bool stores)
{
    const char *path = options->words[1], *right = stores ? "store to" : "read";
    struct kgt_rights list;
    uint64_t able, writer = options->writer;

    if (homes < KAGUTIN_BANDS_HOME + KAGUTIN_BANDS_HOMES)
        command_quit(STATUS_REFUSED, "%s: a table takes homes 12 to 14; the image has %lu homes", path, (unsigned long)homes);
    if (kgt_get_rights(store, 0, &list).code != KAGUTIN_DONE)
        return writer == ANY_WRITER ? 0 : writer;
    able = (stores ? work_storer : work_reader)(&list, KAGUTIN_BANDS_HOME, KAGUTIN_BANDS_HOMES);
    if (writer == ANY_WRITER && able < KAGUTIN_WRITERS)
        return able;
    if (writer == ANY_WRITER || able == KAGUTIN_WRITERS)
        command_quit(STATUS_REFUSED, "%s: no writer has the right to %s homes 12 to 14; 'kagutin rights set' can give it", path,
                     right);
    if (!(stores ? work_may_store : work_may_read)(&list, writer, KAGUTIN_BANDS_HOME, KAGUTIN_BANDS_HOMES))
        command_quit(STATUS_REFUSED, "%s: writer %u has no right to %s homes 12 to 14; writer %u has", path, (unsigned)writer,
                     right, (unsigned)able);
    return writer;
}

static void quit_answer(const struct options *options, uint64_t code)
{
    command_quit(code < KGT_CLOSED ? STATUS_REFUSED : STATUS_TROUBLE, "%s: %s (answer %llu)", options->words[1],
                 kgt_answer_text(code), (unsigned long long)code);
}

/* ---- the three commands ---- */

/* Tries the table on a copy: whatever refuses it there leaves the image as it is. The writer that stores it. */
static uint64_t try_table(const struct options *options, struct table *table)
{
    struct kgt_table set;
    struct copy copy;
    uint64_t writer;

    if (!work_try(&copy, options->words[1]))
        command_quit(STATUS_TROUBLE, "%s", copy.message);
    writer = choose_writer(options, &copy.store, copy.homes, true);
    set = kgt_bands_set(&copy.store, writer, table->strip, KAGUTIN_BAND_SIZE * table->count);
    if (set.code >= KAGUTIN_BAD_BANDS && set.code <= KAGUTIN_BAND_OVERLAP) {
        table_explain(table, set.code, set.mm);
        command_quit(STATUS_REFUSED, "%s", table->message);
    }
    if (set.code != KAGUTIN_DONE)
        quit_answer(options, set.code);
    copy_close(&copy);
    return writer;
}

static void set_table(const struct options *options)
{
    const char *path = options->words[1];
    struct kgt_table set;
    struct kgt_mark mark;
    struct table table;
    struct work work;
    uint64_t writer;

    if (options->base)
        command_quit(STATUS_USAGE, "--base is for show and at: a dump is not changed in place");
    if (!table_read(&table, options->words[2]))
        command_quit(STATUS_TROUBLE, "%s", table.message);
    writer = try_table(options, &table);
    if (!work_open(&work, path))
        command_quit(STATUS_TROUBLE, "%s", work.message);
    set = kgt_bands_set(&work.store, writer, table.strip, KAGUTIN_BAND_SIZE * table.count);
    if (set.code != KAGUTIN_DONE)
        quit_answer(options, set.code);
    mark = kgt_sync(&work.store);
    if (mark.code != KAGUTIN_DONE)
        quit_answer(options, mark.code);
    printf("%s: table of %lu row%s set, %s\n", path, (unsigned long)table.count, table.count == 1 ? "" : "s",
           mark.mark >= set.ticket ? "durable" : "not durable yet");
    work_close(&work);
}

/* Nothing was set, or homes 12 to 14 hold something else. */
static void quit_without_table(struct copy *copy, const struct options *options, uint64_t writer)
{
    uint8_t blocks[KAGUTIN_BLOCK_SIZE * KAGUTIN_BANDS_HOMES] = {0};
    struct bands_record bands;
    const char *why;
    size_t i;

    for (i = 0; i < KAGUTIN_BANDS_HOMES; i++)
        kgt_read(&copy->store, writer, KAGUTIN_BANDS_HOME + i, blocks + KAGUTIN_BLOCK_SIZE * i);
    why = record_bands(blocks, &bands);
    if (why)
        command_quit(STATUS_REFUSED, "%s: homes 12 to 14 hold no table: %s", options->words[1], why);
    command_quit(STATUS_REFUSED, "%s: no table is set", options->words[1]);
}

static struct kgt_band look_up(struct copy *copy, const struct options *options, uint64_t writer, uint64_t mm)
{
    struct kgt_band band = kgt_bands_look_up(&copy->store, writer, mm);

    if (band.code == KAGUTIN_BAD_BANDS)
        quit_without_table(copy, options, writer);
    if (band.code != KAGUTIN_DONE)
        quit_answer(options, band.code);
    return band;
}

/* Each row begins one past the row before, so lookups find all of them. */
static void show_table(const struct options *options)
{
    struct kgt_band band;
    struct copy copy;
    uint64_t mm, writer;

    if (!copy_open(&copy, options->words[1], options->base))
        command_quit(STATUS_TROUBLE, "%s", copy.message);
    writer = choose_writer(options, &copy.store, copy.homes, false);
    look_up(&copy, options, writer, 0);
    puts("# from    to  pumps");
    for (mm = 0; mm < KAGUTIN_DEPTHS; mm = band.to + 1) {
        band = look_up(&copy, options, writer, mm);
        printf("%6llu %5llu  %5llu\n", (unsigned long long)band.from, (unsigned long long)band.to,
               (unsigned long long)band.pumps);
    }
    copy_close(&copy);
}

static void show_depth(const struct options *options)
{
    uint64_t mm = command_number("MM", options->words[2], 0, KAGUTIN_DEPTHS - 1);
    struct kgt_band band;
    struct copy copy;

    if (!copy_open(&copy, options->words[1], options->base))
        command_quit(STATUS_TROUBLE, "%s", copy.message);
    band = look_up(&copy, options, choose_writer(options, &copy.store, copy.homes, false), mm);
    printf("%llu mm: %llu pump%s, as from %llu to %llu mm\n", (unsigned long long)mm, (unsigned long long)band.pumps,
           band.pumps == 1 ? "" : "s", (unsigned long long)band.from, (unsigned long long)band.to);
    copy_close(&copy);
}

int bands_main(int count, char **words)
{
    static const struct {
        const char *name, *needs;
        int count;
        void (*run)(const struct options *options);
    } commands[] = {
        {"set", "an image and a table", 3, set_table},
        {"show", "an image", 2, show_table},
        {"at", "an image and a depth", 3, show_depth},
    };
    struct options options;
    size_t i;

    command_start("bands", help);
    options = read_options(count, words);
    for (i = 0; i < sizeof commands / sizeof *commands; i++) {
        if (strcmp(options.words[0], commands[i].name) != 0)
            continue;
        if (options.count != commands[i].count)
            command_quit(STATUS_USAGE, "%s takes %s", commands[i].name, commands[i].needs);
        commands[i].run(&options);
        return command_end(STATUS_DONE);
    }
    command_quit(STATUS_USAGE, "unknown command '%s'", options.words[0]);
    return STATUS_USAGE;
}
