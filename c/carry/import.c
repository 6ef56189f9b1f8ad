/* Makes a new image from homes as text. */
#include <stdio.h>
#include <stdlib.h>
#include <string.h>

#include "blocks.h"
#include "common/command.h"
#include "common/new_file.h"
#include "kagutin/programs.h"
#include "kagutin_memory.h"
#include "kagutin_rights.h"

static const char help[] =
    "usage: kagutin import [--groups N] [--homes N] TEXT IMAGE\n"
    "Makes a new image under a name that is free, with the homes of a text that 'kagutin export' has printed: JSON, CSV or\n"
    "hex. Its log is new, so that an image that is worn out or of the older format lives on.\n"
    "  --groups N  groups of the log, 4 to 1024 (as the text says)\n"
    "  --homes N   home blocks, 1 to 65535 (as the text says)\n"
    "  -h, --help, --version\n"
    "Status: 0 done, 1 a home of the text lies beyond the image, 2 wrong options, 3 a file cannot be read or written.\n";

/* A store in ordinary memory. */
struct made {
    struct kagutin store;
    struct kgt_memory medium;
    uint8_t *memory, *lasting, *scratch;
    size_t size; /* of the image */
};

static void done(uint64_t code, const char *what)
{
    if (code != KAGUTIN_DONE)
        command_quit(STATUS_REFUSED, "%s: %s (answer %llu)", what, kgt_answer_text(code), (unsigned long long)code);
}

static void start(struct made *made, size_t groups, size_t homes)
{
    size_t memory = KGT_MEMORY_SIZE(groups, homes), scratch = KGT_FORMAT_SIZE(groups, homes);

    made->size = KGT_LOG_SIZE(groups) + KGT_HOMES_SIZE(homes);
    made->memory = (uint8_t *)calloc(1, memory);
    made->lasting = (uint8_t *)calloc(2, made->size);
    made->scratch = (uint8_t *)calloc(1, scratch);
    if (!made->memory || !made->lasting || !made->scratch)
        command_quit(STATUS_TROUBLE, "out of memory");
    kgt_memory_init(&made->medium, made->lasting, made->lasting + made->size, groups, homes);
    done(kgt_init(&made->store, made->memory, memory, groups, homes, kgt_memory_driver(&made->medium)).code, "the new store");
    done(kgt_format(&made->store, made->scratch, scratch).code, "format");
    done(kgt_open(&made->store).code, "open");
}

static void store_home(struct kagutin *store, size_t home, const uint8_t *block)
{
    char what[32];

    snprintf(what, sizeof what, "home %lu", (unsigned long)home);
    done(kgt_begin(store, 0).code, what);
    done(kgt_store(store, 0, home, block).code, what);
    done(kgt_commit(store, 0).code, what);
}

/* The list of rights comes last, since all stores behind it obey it. */
static void fill(struct made *made, const struct blocks *blocks, size_t homes)
{
    bool has_list = homes >= KGT_RIGHTS_HOME + KGT_RIGHTS_HOMES;
    struct kgt_rights list;
    size_t home;

    for (home = 0; home < homes; home++)
        if (blocks->named[home] && !(has_list && home >= KGT_RIGHTS_HOME && home < KGT_RIGHTS_HOME + KGT_RIGHTS_HOMES))
            store_home(&made->store, home, blocks->bytes + BLOCK_SIZE * home);
    memcpy(list.bytes, blocks->bytes + BLOCK_SIZE * KGT_RIGHTS_HOME, sizeof list.bytes);
    if (has_list && kgt_rights_is_list(&list))
        done(kgt_set_rights(&made->store, &list).code, "the list of rights");
    done(kgt_sync(&made->store).code, "sync");
    done(kgt_maintain(&made->store, 0).code, "maintain");
    kgt_memory_cut(&made->medium, NULL, NULL); /* all that was written has arrived */
}

static void make_image(const struct blocks *blocks, size_t groups, size_t homes, const char *path)
{
    struct made made;
    char message[400];
    size_t home;

    for (home = homes; home < MOST_HOMES; home++)
        if (blocks->named[home])
            command_quit(STATUS_REFUSED, "home %lu does not fit in an image of %lu homes", (unsigned long)home,
                         (unsigned long)homes);
    start(&made, groups, homes);
    fill(&made, blocks, homes);
    if (!new_file_write(path, made.lasting, made.size, message, sizeof message))
        command_quit(STATUS_TROUBLE, "%s", message);
    printf("%s: %lu of %lu homes filled, %lu groups\n", path, (unsigned long)blocks->count, (unsigned long)homes,
           (unsigned long)groups);
    free(made.memory);
    free(made.lasting);
    free(made.scratch);
}

int import_main(int count, char **words)
{
    const char *paths[2] = {NULL, NULL};
    uint64_t groups = 0, homes = 0;
    struct blocks blocks;
    int i, given = 0;

    command_start("import", help);
    for (i = 1; i < count; i++) {
        if (strcmp(words[i], "--groups") == 0)
            groups = command_number("--groups", words[++i], KAGUTIN_MIN_GROUPS, KAGUTIN_MAX_GROUPS);
        else if (strcmp(words[i], "--homes") == 0)
            homes = command_number("--homes", words[++i], KAGUTIN_MIN_HOMES, KAGUTIN_MAX_HOMES);
        else if (command_option(words[i]))
            continue;
        else if (given == 2)
            command_quit(STATUS_USAGE, "one word too many: '%s'", words[i]);
        else
            paths[given++] = words[i];
    }
    if (given != 2)
        command_quit(STATUS_USAGE, "a text of homes and a new image are expected");
    if (!blocks_read(&blocks, paths[0]))
        command_quit(STATUS_TROUBLE, "%s", blocks.message);
    groups = groups ? groups : blocks.groups;
    homes = homes ? homes : blocks.homes;
    if (groups > KAGUTIN_MAX_GROUPS || homes > KAGUTIN_MAX_HOMES || (groups && groups < KAGUTIN_MIN_GROUPS))
        command_quit(STATUS_TROUBLE,
                     "%s: groups go from 4 to 1024 and homes from 1 to 65535; --groups N and --homes N set others", paths[0]);
    if (groups == 0 || homes == 0)
        command_quit(STATUS_TROUBLE, "%s: it does not say how many groups and homes there are; --groups N and --homes N do",
                     paths[0]);
    make_image(&blocks, (size_t)groups, (size_t)homes, paths[1]);
    blocks_free(&blocks);
    return command_end(STATUS_DONE);
}
