/* Counts its own starts in an image file: quickstart [IMAGE]. Run it again, or kill it: the count goes on. */
#include <stdio.h>
#include <string.h>

#include "kagutin_file.h"

enum { GROUPS = 16, HOMES = 32, WRITER = 0, STARTS = 7 };

static uint8_t memory[KGT_MEMORY_SIZE(GROUPS, HOMES)];
static struct kagutin store;
static struct kgt_file file;

/* Makes the image if there is none, and brings back what persisted. */
static bool open_store(const char *path)
{
    uint64_t code;

    if (!kgt_file_open_or_create(&file, path, GROUPS, HOMES)) {
        fprintf(stderr, "quickstart: %s\n", file.message);
        return false;
    }
    code = kgt_init(&store, memory, sizeof memory, GROUPS, HOMES, kgt_file_driver(&file)).code;
    if (code == KAGUTIN_DONE)
        code = kgt_open(&store).code;
    if (code != KAGUTIN_DONE)
        fprintf(stderr, "quickstart: %s: %s\n", path, kgt_answer_text(code));
    return code == KAGUTIN_DONE;
}

/* Reads the count and stores the next one; 0 as soon as that is durable. */
static uint64_t count_start(uint8_t *block)
{
    unsigned starts = 0;
    uint64_t code = kgt_read(&store, WRITER, STARTS, block).code;

    if (code == KAGUTIN_DONE)
        code = kgt_begin(&store, WRITER).code;
    if (code != KAGUTIN_DONE)
        return code;
    sscanf((const char *)block, "%u", &starts);
    starts++;
    snprintf((char *)block, KAGUTIN_BLOCK_SIZE, "%u start%s", starts, starts == 1 ? "" : "s");
    code = kgt_store(&store, WRITER, STARTS, block).code;
    return code == KAGUTIN_DONE ? kgt_commit_sync(&store, WRITER).code : code;
}

int main(int count, char **words)
{
    const char *path = count > 1 ? words[1] : "quickstart.img";
    uint8_t block[KAGUTIN_BLOCK_SIZE + 1] = {0}; /* and the end of a text */
    uint64_t code;

    if (count > 2 || path[0] == '-') {
        puts("quickstart (Kagutin) " KAGUTIN_VERSION "\nusage: quickstart [IMAGE]\nCounts its own starts in an image file.");
        return strcmp(path, "-h") && strcmp(path, "--help") && strcmp(path, "--version") ? 2 : 0;
    }
    if (!open_store(path))
        return 1;
    code = count_start(block);
    if (code == KAGUTIN_DONE)
        printf("%s in %s, durable\n", (const char *)block, path);
    else
        fprintf(stderr, "quickstart: %s: %s\n", path, kgt_answer_text(code));
    kgt_file_close(&file);
    return code != KAGUTIN_DONE;
}
