#include "work.h"

#include <stdarg.h>
#include <stdio.h>
#include <stdlib.h>
#include <string.h>

static bool say(struct work *work, const char *format, ...)
{
    va_list arguments;

    va_start(arguments, format);
    vsnprintf(work->message, sizeof work->message, format, arguments);
    va_end(arguments);
    return false;
}

static bool open_store(struct work *work, const char *path)
{
    size_t size = KGT_MEMORY_SIZE(work->file.groups, work->file.homes);
    uint64_t code;

    work->memory = (uint8_t *)malloc(size);
    if (!work->memory)
        return say(work, "%s: out of memory", path);
    code = kgt_init(&work->store, work->memory, size, work->file.groups, work->file.homes, kgt_file_driver(&work->file)).code;
    if (code == KAGUTIN_DONE)
        code = kgt_open(&work->store).code;
    return code == KAGUTIN_DONE || say(work, "%s: cannot be opened: %s", path, kgt_answer_text(code));
}

bool work_try(struct copy *copy, const char *path)
{
    if (!copy_open(copy, path, 0))
        return false;
    if (!copy->dump)
        return true;
    copy_close(copy);
    snprintf(copy->message, sizeof copy->message,
             "%.200s: a dump of a serial FRAM is not changed in place; 'kagutin convert' makes an image of it, and a dump again",
             path);
    return false;
}

bool work_open(struct work *work, const char *path)
{
    memset(work, 0, sizeof *work);
    if (!kgt_file_open(&work->file, path))
        return say(work, "%s", work->file.message);
    if (open_store(work, path))
        return true;
    work_close(work);
    return false;
}

void work_close(struct work *work)
{
    kgt_file_close(&work->file);
    free(work->memory);
    work->memory = NULL;
}

bool work_may_store(const struct kgt_rights *list, uint64_t writer, uint64_t first, uint64_t number)
{
    uint64_t home;

    for (home = first; home < first + number && kgt_rights_may_store(list, writer, home); home++)
        ;
    return home == first + number;
}

bool work_may_read(const struct kgt_rights *list, uint64_t writer, uint64_t first, uint64_t number)
{
    uint64_t home;

    for (home = first; home < first + number && kgt_rights_may_read(list, writer, home); home++)
        ;
    return home == first + number;
}

uint64_t work_storer(const struct kgt_rights *list, uint64_t first, uint64_t number)
{
    uint64_t writer;

    for (writer = 0; writer < KAGUTIN_WRITERS && !work_may_store(list, writer, first, number); writer++)
        ;
    return writer;
}

uint64_t work_reader(const struct kgt_rights *list, uint64_t first, uint64_t number)
{
    uint64_t writer;

    for (writer = 0; writer < KAGUTIN_WRITERS && !work_may_read(list, writer, first, number); writer++)
        ;
    return writer;
}
