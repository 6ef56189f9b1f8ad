/* Shows the list of rights of an image, sets it from a text file, and clears it. */
#include <stdio.h>
#include <string.h>

#include "common/command.h"
#include "common/homes.h"
#include "common/records.h"
#include "common/work.h"
#include "kagutin/programs.h"
#include "list_file.h"

static const char help[] =
    "usage: kagutin rights show [--base N] IMAGE\n"
    "       kagutin rights set IMAGE LIST.txt\n"
    "       kagutin rights clear IMAGE\n"
    "Which writer may store to which homes, and read them, as the list in homes 8 to 11 of an image.\n"
    "  show    prints the list as such a file; also of a raw dump of a serial FRAM\n"
    "  set     puts the list of a text file in, as one transaction: a power cut leaves this list or the one before\n"
    "  clear   takes the list away: every home but 8 to 11 is then open to all\n"
    "  --base N   where the store begins in a dump (0)\n"
    "  -h, --help, --version\n"
    "A line of the file is: W store HOMES, or W read HOMES, for a writer from 0 to 7; HOMES are up to four of HOME,\n"
    "FROM..TO or all. # begins a comment. A list that lets a writer touch no home is refused, unless a line says\n"
    "W nothing. All read homes 8 to 11, and only writer 0 stores there, whatever the list says.\n"
    "A set that is refused leaves the image as it is.\n"
    "Status: 0 done, 1 the list is refused, or there is none, 2 wrong options, 3 a file cannot be read or written or has a\n"
    "bad line.\n";

static uint64_t base;

static void read_homes(struct homes *homes, const char *path)
{
    if (!homes_read(homes, path, base, false))
        command_quit(STATUS_TROUBLE, "%s", homes->message);
    if (homes->homes < KGT_RIGHTS_HOME + KGT_RIGHTS_HOMES)
        command_quit(STATUS_REFUSED, "%s: a list takes homes 8 to 11; the image has %lu homes", path,
                     (unsigned long)homes->homes);
}

/* ---- show ---- */

static bool print_ranges(const struct kgt_rights *list, uint64_t writer, bool store)
{
    bool any = false;
    unsigned i;

    for (i = 0; i < KGT_RIGHTS_RANGES; i++) {
        struct kgt_range range = store ? kgt_rights_store_range(list, writer, i) : kgt_rights_read_range(list, writer, i);

        if (range.number == 0)
            continue;
        if (!any)
            printf("%u %s", (unsigned)writer, store ? "store" : "read ");
        printf(" %lu", (unsigned long)range.first);
        if (range.number > 1)
            printf("..%lu", (unsigned long)(range.first + range.number - 1));
        any = true;
    }
    if (any)
        putchar('\n');
    return any;
}

static void show(const char *path, const char *unused)
{
    struct kgt_rights list;
    struct homes homes;
    uint64_t writer;

    (void)unused;
    read_homes(&homes, path);
    memcpy(list.bytes, homes.blocks + 64 * KGT_RIGHTS_HOME, sizeof list.bytes);
    homes_free(&homes);
    if (!kgt_rights_is_list(&list))
        command_quit(STATUS_REFUSED, "%s: no list is set; every home but 8 to 11 is open to all", path);
    puts("# writer, what it may do, homes");
    for (writer = 0; writer < KAGUTIN_WRITERS; writer++) {
        bool stores = print_ranges(&list, writer, true), reads = print_ranges(&list, writer, false);

        if (!stores && !reads)
            printf("%u nothing\n", (unsigned)writer);
    }
}

/* ---- set ---- */

static bool touches(const struct kgt_rights *list, uint64_t writer, size_t homes)
{
    uint64_t home;

    for (home = 0; home < homes; home++)
        if ((home < KGT_RIGHTS_HOME || home >= KGT_RIGHTS_HOME + KGT_RIGHTS_HOMES)
            && (kgt_rights_may_store(list, writer, home) || kgt_rights_may_read(list, writer, home)))
            return true;
    return false;
}

/* Nobody is locked out unasked. Homes with an owner that nobody may store to are told. */
static void check(const struct list_file *file, const char *path, size_t homes)
{
    static const struct {
        const char *what;
        uint64_t first, number;
    } owned[] = {
        {"the depth bands", RECORD_BANDS_HOME, RECORD_BANDS_HOMES},
        {"the pumps", RECORD_PUMP_HOME, RECORD_PUMPS},
        {"the alarms", RECORD_ALARMS_HOME, RECORD_ALARMS_HOMES},
    };
    uint64_t writer;
    size_t i;

    if (!kgt_rights_is_list(&file->list))
        command_quit(STATUS_REFUSED, "%s: it gives nobody anything, which is no list; 'rights clear' takes a list away", path);
    for (writer = 0; writer < KAGUTIN_WRITERS; writer++)
        if (!file->locked_out[writer] && !touches(&file->list, writer, homes))
            command_quit(STATUS_REFUSED, "%s: writer %u could touch no home below %lu; a line '%u nothing' asks for that", path,
                         (unsigned)writer, (unsigned long)homes, (unsigned)writer);
    for (i = 0; i < sizeof owned / sizeof *owned; i++)
        if (owned[i].first + owned[i].number <= homes
            && work_storer(&file->list, owned[i].first, owned[i].number) == KAGUTIN_WRITERS)
            command_say("note: no writer may store to homes %u to %u, %s", (unsigned)owned[i].first,
                        (unsigned)(owned[i].first + owned[i].number - 1), owned[i].what);
}

static void quit_answer(const char *path, uint64_t code)
{
    command_quit(code < KGT_CLOSED ? STATUS_REFUSED : STATUS_TROUBLE, "%s: %s (answer %llu)", path, kgt_answer_text(code),
                 (unsigned long long)code);
}

/* On a copy first: whatever refuses the list there leaves the image as it is. */
static void store_list(const char *path, const struct kgt_rights *list, const char *what)
{
    uint64_t code;
    struct copy copy;
    struct work work;

    if (!work_try(&copy, path))
        command_quit(STATUS_TROUBLE, "%s", copy.message);
    code = kgt_set_rights(&copy.store, list).code;
    copy_close(&copy);
    if (code != KAGUTIN_DONE)
        quit_answer(path, code);
    if (!work_open(&work, path))
        command_quit(STATUS_TROUBLE, "%s", work.message);
    code = kgt_set_rights(&work.store, list).code;
    if (code == KAGUTIN_DONE)
        code = kgt_sync(&work.store).code;
    if (code != KAGUTIN_DONE)
        quit_answer(path, code);
    printf("%s: %s, durable\n", path, what);
    work_close(&work);
}

static void set(const char *path, const char *text)
{
    struct list_file file;
    struct homes homes;
    size_t count;

    if (!list_file_read(&file, text))
        command_quit(STATUS_TROUBLE, "%s", file.message);
    read_homes(&homes, path);
    count = homes.homes;
    homes_free(&homes);
    check(&file, text, count);
    store_list(path, &file.list, "list of rights set");
}

static void clear(const char *path, const char *unused)
{
    struct kgt_rights list;
    struct homes homes;

    (void)unused;
    read_homes(&homes, path);
    homes_free(&homes);
    kgt_rights_clear(&list);
    store_list(path, &list, "list of rights cleared");
}

int rights_main(int count, char **words)
{
    static const struct {
        const char *name, *needs;
        int count;
        void (*run)(const char *path, const char *text);
    } commands[] = {{"show", "an image", 2, show}, {"set", "an image and a list", 3, set}, {"clear", "an image", 2, clear}};
    const char *parts[3] = {NULL, NULL, NULL};
    int i, given = 0;
    size_t k;

    command_start("rights", help);
    for (i = 1; i < count; i++) {
        if (command_base(words[i], words[i + 1], &base))
            i++;
        else if (command_option(words[i]))
            continue;
        else if (given == 3)
            command_quit(STATUS_USAGE, "one word too many: '%s'", words[i]);
        else
            parts[given++] = words[i];
    }
    if (given == 0)
        command_quit(STATUS_USAGE, "show, set or clear is expected");
    for (k = 0; k < 3 && strcmp(parts[0], commands[k].name) != 0; k++)
        ;
    if (k == 3)
        command_quit(STATUS_USAGE, "unknown command '%s'", parts[0]);
    if (given != commands[k].count)
        command_quit(STATUS_USAGE, "%s takes %s", commands[k].name, commands[k].needs);
    if (base && k > 0)
        command_quit(STATUS_USAGE, "--base is for show: a dump is not changed in place");
    commands[k].run(parts[1], parts[2]);
    return command_end(STATUS_DONE);
}
