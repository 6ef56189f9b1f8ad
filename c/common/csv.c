#include "csv.h"

#include <errno.h>
#include <fcntl.h>
#include <stdarg.h>
#include <string.h>
#include <sys/stat.h>
#include <unistd.h>

#include "text_line.h"

static bool cannot(struct csv *csv, const char *what, const char *why)
{
    snprintf(csv->message, sizeof csv->message, "%s: %s%s", csv->path, what, why);
    return false;
}

/* A message about the row read last; bytes that are no text are shown as question marks. */
enum csv_row csv_complain(struct csv *csv, const char *format, ...)
{
    size_t used = (size_t)snprintf(csv->message, sizeof csv->message, "%s:%lu: ", csv->path, csv->line);
    va_list arguments;
    char *at;

    if (used < sizeof csv->message) {
        va_start(arguments, format);
        vsnprintf(csv->message + used, sizeof csv->message - used, format, arguments);
        va_end(arguments);
    }
    for (at = csv->message; *at; at++)
        if ((unsigned char)*at < 0x20 || *at == 0x7f)
            *at = '?';
    return CSV_BAD;
}

bool csv_open(struct csv *csv, const char *path)
{
    int number = open(path, O_RDONLY | O_NONBLOCK | O_CLOEXEC);
    struct stat status;

    memset(csv, 0, sizeof *csv);
    csv->path = path;
    if (number < 0)
        return cannot(csv, "cannot be opened: ", strerror(errno));
    if (fstat(number, &status) != 0 || !S_ISREG(status.st_mode)) {
        close(number);
        return cannot(csv, "not a regular file", "");
    }
    csv->file = fdopen(number, "rb");
    if (csv->file)
        return true;
    close(number);
    return cannot(csv, "cannot be opened: ", strerror(errno));
}

static bool is_space(char byte)
{
    return byte == ' ' || byte == '\t';
}

/* A field in quotes, from behind the first one: taken out in place. Where it goes on; null if a quote is missing. */
static char *take_quoted(char *at)
{
    char *put = at;

    for (; *at; at++) {
        if (*at == '"' && at[1] != '"')
            break;
        if (*at == '"')
            at++;
        *put++ = *at;
    }
    if (!*at)
        return NULL;
    for (at++; is_space(*at); at++)
        ;
    if (*at && *at != ',' && *at != ';')
        return NULL;
    *put = '\0'; /* at or before the closing quote */
    return at;
}

/* A plain field: the spaces behind it are cut off, once what ends it is known. */
static char *take_plain(char *at, char **end)
{
    size_t length = strcspn(at, ",;");

    *end = at + length;
    while (*end > at && is_space((*end)[-1]))
        --*end;
    return at + length;
}

static enum csv_row split(struct csv *csv, char *at)
{
    for (csv->count = 0;;) {
        char *end = NULL, ending;

        while (is_space(*at))
            at++;
        if (csv->count == CSV_FIELDS)
            return csv_complain(csv, "more than %d fields", CSV_FIELDS);
        csv->fields[csv->count++] = *at == '"' ? at + 1 : at;
        at = *at == '"' ? take_quoted(at + 1) : take_plain(at, &end);
        if (!at)
            return csv_complain(csv, "a quote is not closed, or text follows it");
        ending = *at;
        if (end)
            *end = '\0';
        if (!ending)
            return CSV_ROW;
        at++;
    }
}

enum csv_row csv_read(struct csv *csv)
{
    for (;;) {
        char *at = csv->text;

        csv->line++;
        switch (text_line_read(csv->file, csv->text, sizeof csv->text)) {
        case TEXT_LINE: break;
        case TEXT_LONG: return csv_complain(csv, "the line is too long");
        case TEXT_ZERO: return csv_complain(csv, "a zero byte");
        default:
            if (!ferror(csv->file))
                return CSV_END;
            cannot(csv, "cannot be read: ", strerror(errno));
            return CSV_BAD;
        }
        if (csv->line == 1 && strncmp(at, "\xEF\xBB\xBF", 3) == 0)
            at += 3;
        while (is_space(*at))
            at++;
        if (*at && *at != '#')
            return split(csv, at);
    }
}

void csv_close(struct csv *csv)
{
    if (csv->file)
        fclose(csv->file);
    csv->file = NULL;
}
