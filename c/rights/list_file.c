#include "list_file.h"

#include <errno.h>
#include <stdarg.h>
#include <stdio.h>
#include <stdlib.h>
#include <string.h>

#include "common/text_file.h"
#include "common/text_line.h"

enum { LINE_SIZE = 512, MOST = 65535 };

struct reader {
    struct list_file *file;
    const char *path;
    unsigned long line;
};

static bool say(struct reader *reader, const char *format, ...)
{
    char what[240];
    va_list arguments;

    va_start(arguments, format);
    vsnprintf(what, sizeof what, format, arguments);
    va_end(arguments);
    snprintf(reader->file->message, sizeof reader->file->message, "%s:%lu: %s", reader->path, reader->line, what);
    return false;
}

/* The next word of a line, cut off; null at its end. */
static char *next_word(char **text)
{
    char *word = *text + strspn(*text, " \t,");

    if (*word == '\0')
        return NULL;
    *text = word + strcspn(word, " \t,");
    if (**text)
        *(*text)++ = '\0';
    return word;
}

/* HOME, FROM..TO or all. */
static bool read_range(const char *word, uint64_t *first, uint64_t *last)
{
    char *end;

    if (strcmp(word, "all") == 0) {
        *first = 0;
        *last = MOST - 1;
        return true;
    }
    if (*word < '0' || *word > '9')
        return false;
    *first = *last = strtoul(word, &end, 10);
    if (strncmp(end, "..", 2) == 0 && end[2] >= '0' && end[2] <= '9')
        *last = strtoul(end + 2, &end, 10);
    return *end == '\0';
}

static bool read_ranges(struct reader *reader, uint64_t writer, bool store, char *text)
{
    uint64_t first, last;
    char *word = next_word(&text);

    if (!word)
        return say(reader, "homes are expected: HOME, FROM..TO or all");
    for (; word; word = next_word(&text)) {
        if (!read_range(word, &first, &last))
            return say(reader, "'%.40s' is neither HOME nor FROM..TO nor all", word);
        if (first > last || first > MOST || last - first >= MOST)
            return say(reader, "'%.40s': homes go up to 65534, and from is not above to", word);
        if (!(store ? kgt_rights_allow_store : kgt_rights_allow_read)(&reader->file->list, writer, first, last - first + 1))
            return say(reader, "writer %u has four ranges to %s already; a list has no room for more", (unsigned)writer,
                       store ? "store to" : "read");
    }
    return true;
}

static bool read_row(struct reader *reader, char *text)
{
    char *word, *kind;
    uint64_t writer;

    text[strcspn(text, "#")] = '\0';
    word = next_word(&text);
    if (!word)
        return true;
    if (word[0] < '0' || word[0] > '7' || word[1])
        return say(reader, "a writer from 0 to 7 is expected, not '%.40s'", word);
    writer = (uint64_t)(word[0] - '0');
    kind = next_word(&text);
    if (kind && (strcmp(kind, "store") == 0 || strcmp(kind, "read") == 0))
        return read_ranges(reader, writer, *kind == 's', text);
    if (!kind || strcmp(kind, "nothing") != 0 || next_word(&text))
        return say(reader, "a line is: W store HOMES, W read HOMES or W nothing");
    reader->file->locked_out[writer] = true;
    return true;
}

static bool read_rows(struct reader *reader, FILE *file)
{
    char text[LINE_SIZE];
    enum text_line read;

    while ((read = text_line_read(file, text, sizeof text)) != TEXT_END) {
        reader->line++;
        if (read != TEXT_LINE)
            return say(reader,
                       read == TEXT_LONG ? "the line is too long"
                                         : "a zero byte, no text; the image is given first, then the list");
        if (!read_row(reader, text))
            return false;
    }
    return !ferror(file) || say(reader, "cannot be read: %s", strerror(errno));
}

bool list_file_read(struct list_file *list, const char *path)
{
    struct reader reader = {NULL, NULL, 0};
    FILE *file;
    bool done;

    memset(list, 0, sizeof *list);
    reader.file = list;
    reader.path = path;
    file = text_file_open(path, list->message, sizeof list->message);
    if (!file)
        return false;
    done = read_rows(&reader, file);
    fclose(file);
    return done;
}
