/* Homes from JSON: {"groups":G,"homes":D,"blocks":[{"home":H,"block":"hex"}, ..]}; other keys with numbers or texts are passed over. */
#include <stdio.h>
#include <stdlib.h>
#include <string.h>

#include "blocks.h"

struct reader {
    struct blocks *blocks;
    const char *at;
    size_t line;
};

static bool fail(struct reader *reader, const char *what)
{
    snprintf(reader->blocks->message, sizeof reader->blocks->message, "%s", what);
    return false;
}

static char look(struct reader *reader)
{
    for (; *reader->at && strchr(" \t\r\n", *reader->at); reader->at++)
        reader->line += *reader->at == '\n';
    return *reader->at;
}

static bool take(struct reader *reader, char c)
{
    if (look(reader) != c)
        return false;
    reader->at++;
    return true;
}

/* A text without escapes, cut to the room there is. */
static bool read_text(struct reader *reader, char *text, size_t size)
{
    size_t length;

    if (!take(reader, '"'))
        return fail(reader, "a text in quotes is expected");
    length = strcspn(reader->at, "\"\\\n");
    if (reader->at[length] != '"')
        return fail(reader, "a text does not end on its line");
    snprintf(text, size, "%.*s", (int)(length < size ? length : size - 1), reader->at);
    reader->at += length + 1;
    return true;
}

static bool read_number(struct reader *reader, uint64_t *number)
{
    char c = look(reader);
    char *end;

    if (c < '0' || c > '9')
        return fail(reader, "a whole number is expected");
    *number = strtoull(reader->at, &end, 10);
    reader->at = end;
    return true;
}

/* The key of the next member, and its colon. */
static bool read_key(struct reader *reader, char *key, size_t size)
{
    return read_text(reader, key, size) && (take(reader, ':') || fail(reader, "a colon is expected behind a key"));
}

static bool pass_over(struct reader *reader)
{
    uint64_t number;
    char text[8];

    return look(reader) == '"' ? read_text(reader, text, sizeof text) : read_number(reader, &number);
}

static bool read_block(struct reader *reader, uint8_t block[BLOCK_SIZE])
{
    char text[256];
    const char *hex = text;

    if (!read_text(reader, text, sizeof text))
        return false;
    if (!blocks_hex(&hex, block) || *hex)
        return fail(reader, "64 bytes in hex are expected");
    return true;
}

static bool read_home(struct reader *reader)
{
    uint8_t block[BLOCK_SIZE];
    uint64_t home = 0;
    bool has_home = false, has_block = false;
    char key[32];

    if (!take(reader, '{'))
        return fail(reader, "a home in braces is expected");
    do {
        bool done;

        if (!read_key(reader, key, sizeof key))
            return false;
        if (strcmp(key, "home") == 0)
            done = has_home = read_number(reader, &home);
        else if (strcmp(key, "block") == 0)
            done = has_block = read_block(reader, block);
        else
            done = pass_over(reader);
        if (!done)
            return false;
    } while (take(reader, ','));
    if (!take(reader, '}'))
        return fail(reader, "a closing brace is expected");
    return has_home && has_block ? blocks_put(reader->blocks, home, block) : fail(reader, "a home has \"home\" and \"block\"");
}

static bool read_homes(struct reader *reader)
{
    if (!take(reader, '['))
        return fail(reader, "a list of homes is expected");
    if (take(reader, ']'))
        return true;
    do
        if (!read_home(reader))
            return false;
    while (take(reader, ','));
    return take(reader, ']') || fail(reader, "a closing bracket is expected");
}

static bool read_member(struct reader *reader)
{
    uint64_t number = 0;
    char key[32];

    if (!read_key(reader, key, sizeof key))
        return false;
    if (strcmp(key, "blocks") == 0)
        return read_homes(reader);
    if (strcmp(key, "groups") != 0 && strcmp(key, "homes") != 0)
        return pass_over(reader);
    if (!read_number(reader, &number))
        return false;
    if (number > MOST_HOMES)
        number = MOST_HOMES + 1; /* refused by whoever makes the image */
    *(key[0] == 'g' ? &reader->blocks->groups : &reader->blocks->homes) = (size_t)number;
    return true;
}

bool blocks_read_json(struct blocks *blocks, const char *text, size_t *line)
{
    struct reader reader = {NULL, NULL, 1};
    bool done = true;

    reader.blocks = blocks;
    reader.at = text;
    take(&reader, '{');
    do
        done = read_member(&reader);
    while (done && take(&reader, ','));
    if (done)
        done = (take(&reader, '}') && look(&reader) == '\0') || fail(&reader, "the end is expected behind a closing brace");
    *line = reader.line;
    return done;
}
