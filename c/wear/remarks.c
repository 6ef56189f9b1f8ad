/* Names of stations, and what the sheet says before the pumps. */
#include <stdarg.h>
#include <stdlib.h>
#include <string.h>

#include "common/command.h"
#include "sheet.h"

const char *wear_name(const char *path)
{
    const char *slash = strrchr(path, '/');

    return slash && slash[1] ? slash + 1 : path;
}

int wear_match(const char *path, const char *name)
{
    const char *file = wear_name(path), *other = wear_name(name), *ending = strrchr(file, '.');

    if (strcmp(path, name) == 0)
        return 0;
    if (strcmp(file, other) == 0)
        return 1;
    if (ending && strlen(other) == (size_t)(ending - file) && strncmp(file, other, strlen(other)) == 0)
        return 2;
    return WEAR_NO_MATCH;
}

void *wear_room(void *old, size_t count, size_t size)
{
    void *room = count > SIZE_MAX / size ? NULL : realloc(old, count * size + 1);

    if (!room)
        command_quit(STATUS_TROUBLE, "out of memory");
    return room;
}

static char *copy_of(const char *text)
{
    return strcpy((char *)wear_room(NULL, strlen(text) + 1, 1), text);
}

void wear_remark(struct wear_sheet *sheet, enum wear_kind kind, const char *image, unsigned pump, const char *format, ...)
{
    struct wear_remark remark;
    va_list arguments;
    char text[1024], *at;

    va_start(arguments, format);
    vsnprintf(text, sizeof text, format, arguments);
    va_end(arguments);
    for (at = text; *at; at++)
        if ((unsigned char)*at < 0x20 || *at == 0x7f)
            *at = '?';
    remark.kind = kind;
    remark.image = image ? copy_of(image) : NULL;
    remark.pump = pump;
    remark.text = copy_of(text);
    sheet->remarks = (struct wear_remark *)wear_room(sheet->remarks, sheet->remark_count + 1, sizeof *sheet->remarks);
    sheet->remarks[sheet->remark_count++] = remark;
}

size_t wear_find(const struct wear_sheet *sheet, const char *name)
{
    int closest = WEAR_NO_MATCH;
    size_t found = sheet->station_count, i;

    for (i = 0; i < sheet->station_count; i++) {
        int match = sheet->stations[i].doubled ? WEAR_NO_MATCH : wear_match(sheet->stations[i].path, name);

        if (match == WEAR_NO_MATCH || match > closest)
            continue;
        found = match < closest ? i : sheet->station_count; /* two that match as closely: neither */
        closest = match;
    }
    return found;
}
