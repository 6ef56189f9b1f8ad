#include "readings.h"

#include <ctype.h>
#include <errno.h>
#include <stdarg.h>
#include <stdio.h>
#include <stdlib.h>
#include <string.h>

#include "common/text_file.h"
#include "common/text_line.h"

enum { LINE_SIZE = 256, MOST_ROWS = 1440 * 366 };

struct source {
    const char *path;
    unsigned long line;
    char *trouble;
    size_t trouble_size;
};

static bool refuse(const struct source *source, const char *format, ...)
{
    va_list arguments;
    int used = source->line ? snprintf(source->trouble, source->trouble_size, "%s:%lu: ", source->path, source->line)
                            : snprintf(source->trouble, source->trouble_size, "%s: ", source->path);
    char *text;

    if (used < 0 || (size_t)used >= source->trouble_size)
        return false;
    text = source->trouble + used;
    va_start(arguments, format);
    vsnprintf(text, source->trouble_size - (size_t)used, format, arguments);
    va_end(arguments);
    for (; *text; text++) /* what the file holds is not for a terminal */
        if (iscntrl((unsigned char)*text))
            *text = '?';
    return false;
}

static const char *past_blanks(const char *text)
{
    while (*text == ' ' || *text == '\t')
        text++;
    return text;
}

/* ---- rows ---- */

static bool read_level(const struct source *source, const char **text, uint16_t *level)
{
    const char *start = past_blanks(*text);
    unsigned long value;
    char *end;

    if (!isdigit((unsigned char)*start))
        return refuse(source,
                      *start ? "the level in millimetres is not a whole number: '%.20s'" : "the level in millimetres is missing",
                      start);
    errno = 0;
    value = strtoul(start, &end, 10);
    if (errno || value > UINT16_MAX)
        return refuse(source, "the level in millimetres is above 65535: '%.*s'", (int)(end - start > 20 ? 20 : end - start),
                      start);
    *level = (uint16_t)value;
    *text = end;
    return true;
}

static bool add_row(const struct source *source, struct readings_file *file, const struct reading *row)
{
    if (file->count == (file->kind == TIME_DAY ? (size_t)MOST_ROWS : (size_t)KAGUTIN_MAX_READINGS))
        return refuse(source, "more than %lu rows", (unsigned long)file->count);
    if (file->count == file->room) {
        size_t room = file->room ? 2 * file->room : 1440;
        struct reading *rows = (struct reading *)realloc(file->rows, room * sizeof *rows);

        if (!rows)
            return refuse(source, "out of memory");
        file->rows = rows;
        file->room = room;
    }
    file->rows[file->count++] = *row;
    return true;
}

/* Does the time come after that of the last row, and is it of the same kind? */
static bool check_order(const struct source *source, const struct readings_file *file, const struct reading_time *time)
{
    const struct reading *last = file->count ? &file->rows[file->count - 1] : NULL;
    char now[TIME_TEXT], before[TIME_TEXT];

    if (!last)
        return true;
    if (time->kind != file->kind)
        return refuse(source, "the rows before have %s, this one not", time_kind_name(file->kind));
    if (time->day > last->day || (time->day == last->day && time->minute > last->minute))
        return true;
    time_write(file->kind, time->minute, now);
    time_write(file->kind, last->minute, before);
    if (time->day < last->day)
        return refuse(source, "the day lies before that of the row above");
    return refuse(source, "minute %s does not come after minute %s", now, before);
}

static bool read_row(const struct source *source, const char *text, struct readings_file *file)
{
    const char *start = text, *why;
    struct reading_time time;
    struct reading row;

    why = time_read(&text, &time);
    if (why)
        return refuse(source, *start ? "%s: '%.20s'" : "%s", why, start);
    text = past_blanks(text);
    if (*text == ',' || *text == ';')
        text++;
    else if (text[-1] != '\t')
        return refuse(source, "a comma is missing after the minute");
    if (!read_level(source, &text, &row.level))
        return false;
    if (*past_blanks(text))
        return refuse(source, "a row has two numbers, minute and millimetres; here is more: '%.20s'", past_blanks(text));
    if (!check_order(source, file, &time))
        return false;
    file->kind = time.kind;
    row.day = time.day;
    row.minute = time.minute;
    return add_row(source, file, &row);
}

/* A heading is a first line of two cells or more, none of which has a digit: a mistyped row is none. */
static bool is_heading(const char *text)
{
    return strpbrk(text, ",;\t") && !strpbrk(text, "0123456789") && (isalpha((unsigned char)*text) || *text == '"');
}

static bool read_rows(struct source *source, FILE *stream, struct readings_file *file)
{
    char line[LINE_SIZE];
    enum text_line read;
    bool first = true;

    while ((read = text_line_read(stream, line, sizeof line)) != TEXT_END) {
        const char *text = past_blanks(line);

        source->line++;
        if (read != TEXT_LINE)
            return refuse(source, read == TEXT_LONG ? "the line is too long for a row" : "a zero byte, no text");
        if (*text == '\0' || *text == '#')
            continue;
        if (!(first && is_heading(text)) && !read_row(source, text, file))
            return false;
        first = false;
    }
    source->line = 0;
    if (ferror(stream))
        return refuse(source, "cannot be read: %s", strerror(errno));
    return file->count || refuse(source, "no rows");
}

bool readings_load(struct readings_file *file, const char *path, char *trouble, size_t trouble_size)
{
    struct source source = {path, 0, trouble, trouble_size};
    FILE *stream = text_file_open(path, trouble, trouble_size);
    bool done;

    memset(file, 0, sizeof *file);
    file->path = path;
    if (!stream)
        return false;
    done = read_rows(&source, stream, file);
    fclose(stream);
    if (!done)
        readings_free(file);
    return done;
}

void readings_free(struct readings_file *file)
{
    free(file->rows);
    file->rows = NULL;
    file->count = file->room = 0;
}

/* ---- days ---- */

bool readings_next_day(const struct readings_file *file, int64_t after, int64_t *day)
{
    size_t i;

    for (i = 0; i < file->count && file->rows[i].day <= after; i++)
        ;
    if (i == file->count)
        return false;
    *day = file->rows[i].day;
    return true;
}

void readings_of_day(const struct readings_file *file, int64_t day, struct readings *readings)
{
    size_t i;

    memset(readings, 0, sizeof *readings);
    readings->path = file->path;
    readings->kind = file->kind;
    for (i = 0; i < file->count; i++)
        if (file->rows[i].day == day) {
            readings->minute[readings->count] = file->rows[i].minute;
            readings->level[readings->count++] = file->rows[i].level;
        }
}

size_t readings_strip(const struct readings *readings, uint8_t *strip)
{
    size_t i;

    for (i = 0; i < readings->count; i++) {
        *strip++ = (uint8_t)(readings->minute[i] & 0xff);
        *strip++ = (uint8_t)(readings->minute[i] >> 8);
        *strip++ = (uint8_t)(readings->level[i] & 0xff);
        *strip++ = (uint8_t)(readings->level[i] >> 8);
    }
    return readings->count * KAGUTIN_READING_SIZE;
}

bool readings_at(const struct readings *readings, uint16_t minute, uint16_t *level)
{
    size_t low = 0, high = readings->count;

    while (low < high) {
        size_t middle = (low + high) / 2;

        if (readings->minute[middle] < minute)
            low = middle + 1;
        else
            high = middle;
    }
    if (low == readings->count || readings->minute[low] != minute)
        return false;
    *level = readings->level[low];
    return true;
}
