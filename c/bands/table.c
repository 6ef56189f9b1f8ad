/* Tables of depth bands from text files, and what is wrong with one in terms of its lines. */
#include "table.h"

#include <errno.h>
#include <stdarg.h>
#include <stdio.h>
#include <stdlib.h>
#include <string.h>

#include "common/text_file.h"
#include "common/text_line.h"

#define LINE_SIZE 256

static bool say(struct table *table, const char *format, ...)
{
    va_list arguments;

    va_start(arguments, format);
    vsnprintf(table->message, sizeof table->message, format, arguments);
    va_end(arguments);
    return false;
}

static bool say_at(struct table *table, unsigned long line, const char *what)
{
    return say(table, "%s:%lu: %s", table->path, line, what);
}

/* Blank, or nothing but a comment. The comment is cut off. */
static bool is_blank(char *line)
{
    line[strcspn(line, "#")] = '\0';
    return line[strspn(line, " \t")] == '\0';
}

/* The next number of a line, up to 65535. */
static bool read_number(struct table *table, unsigned long line, const char *name, char **text, unsigned long *number)
{
    char what[96];
    char *end;

    *text += strspn(*text, " \t");
    if (**text == '\0') {
        snprintf(what, sizeof what, "%s is missing; a row is: from to pumps", name);
        return say_at(table, line, what);
    }
    errno = 0;
    *number = strtoul(*text, &end, 10);
    if (**text < '0' || **text > '9' || (*end && !strchr(" \t", *end))) {
        snprintf(what, sizeof what, "%s is not a whole number; a row is: from to pumps, with blanks between", name);
        return say_at(table, line, what);
    }
    if (errno || *number > UINT16_MAX) {
        snprintf(what, sizeof what, "%s is above 65535", name);
        return say_at(table, line, what);
    }
    *text = end;
    return true;
}

static void put_row(struct table *table, const struct table_row *row)
{
    uint8_t *bytes = table->strip + KAGUTIN_BAND_SIZE * table->count;

    table->rows[table->count++] = *row;
    bytes[0] = (uint8_t)row->from;
    bytes[1] = (uint8_t)(row->from >> 8);
    bytes[2] = (uint8_t)row->to;
    bytes[3] = (uint8_t)(row->to >> 8);
    bytes[4] = (uint8_t)row->pumps;
}

static bool read_row(struct table *table, unsigned long line, char *text)
{
    struct table_row row;

    row.line = line;
    if (!read_number(table, line, "from", &text, &row.from) || !read_number(table, line, "to", &text, &row.to)
        || !read_number(table, line, "pumps", &text, &row.pumps))
        return false;
    if (text[strspn(text, " \t")])
        return say_at(table, line, "more than three numbers; a row is: from to pumps");
    if (row.pumps > UINT8_MAX)
        row.pumps = UINT8_MAX; /* above 4 all the same */
    if (table->count <= KAGUTIN_MAX_BANDS)
        put_row(table, &row);
    return true;
}

static bool read_rows(struct table *table, FILE *file)
{
    char text[LINE_SIZE];
    unsigned long line = 0;
    enum text_line read;

    while ((read = text_line_read(file, text, sizeof text)) != TEXT_END) {
        line++;
        if (read != TEXT_LINE)
            return say_at(table, line,
                          read == TEXT_LONG ? "the line is too long"
                                            : "a zero byte, no text; the image is given first, then the table");
        if (!is_blank(text) && !read_row(table, line, text))
            return false;
    }
    return ferror(file) ? say(table, "%s: cannot be read: %s", table->path, strerror(errno)) : true;
}

bool table_read(struct table *table, const char *path)
{
    FILE *file;
    bool done;

    memset(table, 0, sizeof *table);
    table->path = path;
    file = text_file_open(path, table->message, sizeof table->message);
    if (!file)
        return false;
    done = read_rows(table, file);
    fclose(file);
    return done;
}

/* ---- what is wrong ---- */

/* 11: the first row that is bad by itself, or their number. */
static void explain_row(struct table *table)
{
    size_t i;

    for (i = 0; i < table->count; i++) {
        const struct table_row *row = &table->rows[i];

        if (i == KAGUTIN_MAX_BANDS)
            say(table, "%s:%lu: row 33; a table has at most 32", table->path, row->line);
        else if (row->from > row->to)
            say(table, "%s:%lu: from %lu is above to %lu", table->path, row->line, row->from, row->to);
        else if (row->to >= KAGUTIN_DEPTHS)
            say(table, "%s:%lu: to %lu is above 9999", table->path, row->line, row->to);
        else if (row->pumps > KAGUTIN_MAX_BAND_PUMPS)
            say(table, "%s:%lu: pumps above 4", table->path, row->line);
        else
            continue;
        return;
    }
    say(table, "%s: no rows", table->path);
}

/* 12: between which lines the gap lies. */
static void explain_gap(struct table *table, unsigned long mm)
{
    const struct table_row *before = NULL, *after = NULL;
    unsigned long end = KAGUTIN_DEPTHS - 1;
    char text[160] = "";
    size_t i;

    for (i = 0; i < table->count; i++) {
        const struct table_row *row = &table->rows[i];

        if (row->to < mm && (!before || row->to > before->to))
            before = row;
        if (row->from > mm && (!after || row->from < after->from))
            after = row;
    }
    if (after)
        end = after->from - 1;
    if (before && after)
        snprintf(text, sizeof text, ", between line %lu and line %lu", before->line, after->line);
    else if (before)
        snprintf(text, sizeof text, ", behind line %lu", before->line);
    else if (after)
        snprintf(text, sizeof text, ", before line %lu", after->line);
    if (end == mm)
        say(table, "%s: %lu mm lies in no row%s", table->path, mm, text);
    else
        say(table, "%s: %lu mm lies in no row, nor does any up to %lu mm%s", table->path, mm, end, text);
}

/* 13: the first two lines that hold the millimetre. */
static void explain_overlap(struct table *table, unsigned long mm)
{
    unsigned long lines[2] = {0, 0};
    size_t i, found = 0;

    for (i = 0; i < table->count && found < 2; i++)
        if (table->rows[i].from <= mm && mm <= table->rows[i].to)
            lines[found++] = table->rows[i].line;
    say(table, "%s:%lu: %lu mm lies in this row and in that of line %lu", table->path, lines[1], mm, lines[0]);
}

void table_explain(struct table *table, uint64_t code, uint64_t millimetre)
{
    if (code == KAGUTIN_BAND_GAP)
        explain_gap(table, (unsigned long)millimetre);
    else if (code == KAGUTIN_BAND_OVERLAP)
        explain_overlap(table, (unsigned long)millimetre);
    else
        explain_row(table);
}
