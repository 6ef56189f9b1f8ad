#include "blocks.h"

#include <ctype.h>
#include <stdarg.h>
#include <stdio.h>
#include <stdlib.h>
#include <string.h>

#include "common/text_file.h"

static bool say(struct blocks *blocks, const char *format, ...)
{
    va_list arguments;

    va_start(arguments, format);
    vsnprintf(blocks->message, sizeof blocks->message, format, arguments);
    va_end(arguments);
    return false;
}

bool blocks_put(struct blocks *blocks, uint64_t home, const uint8_t *block)
{
    if (home >= MOST_HOMES)
        return say(blocks, "home %llu: homes go from 0 to 65534", (unsigned long long)home);
    if (blocks->named[home])
        return say(blocks, "home %llu stands here a second time", (unsigned long long)home);
    memcpy(blocks->bytes + BLOCK_SIZE * home, block, BLOCK_SIZE);
    blocks->named[home] = true;
    blocks->count++;
    return true;
}

static int digit(char c)
{
    return c >= '0' && c <= '9' ? c - '0' : c >= 'a' && c <= 'f' ? c - 'a' + 10 : c >= 'A' && c <= 'F' ? c - 'A' + 10 : -1;
}

/* 64 bytes of two digits each, blanks between them or not. */
bool blocks_hex(const char **text, uint8_t block[BLOCK_SIZE])
{
    size_t i;

    for (i = 0; i < BLOCK_SIZE; i++) {
        while (**text == ' ')
            ++*text;
        if (digit((*text)[0]) < 0 || digit((*text)[1]) < 0)
            return false;
        block[i] = (uint8_t)(digit((*text)[0]) << 4 | digit((*text)[1]));
        *text += 2;
    }
    return true;
}

/* "# groups G homes D blocks N": the shape, and how many homes follow, which older texts do not tell. */
static void read_shape(struct blocks *blocks, const char *text)
{
    unsigned long groups, homes, count;
    int told = sscanf(text, "# groups %lu homes %lu blocks %lu", &groups, &homes, &count);

    if (told < 2)
        return;
    blocks->groups = groups;
    blocks->homes = homes;
    blocks->told = told == 3 ? count : NOT_TOLD;
    blocks->has_shape = true;
}

/* "home,block" or "home: block"; a heading, blank lines and comments are passed over. */
static bool read_row(struct blocks *blocks, const char *text)
{
    uint8_t block[BLOCK_SIZE];
    unsigned long home;
    char *end;

    read_shape(blocks, text);
    if (*text == '#' || text[strspn(text, " \t")] == '\0' || strcmp(text, "home,block") == 0)
        return true;
    home = strtoul(text, &end, 10);
    if (!isdigit((unsigned char)*text) || !strchr(",;:\t", *end) || !*end)
        return say(blocks, "a row is a home, a comma or colon, and 64 bytes in hex");
    text = end + 1 + strspn(end + 1, " \t");
    if (!blocks_hex(&text, block) || text[strspn(text, " \t")])
        return say(blocks, "home %lu: 64 bytes in hex are expected", home);
    return blocks_put(blocks, home, block);
}

static bool read_rows(struct blocks *blocks, char *text, size_t *line)
{
    while (*text) {
        size_t size = strcspn(text, "\n");
        bool last = text[size] == '\0';

        ++*line;
        text[size] = '\0';
        if (size && text[size - 1] == '\r')
            text[size - 1] = '\0';
        if (!read_row(blocks, text))
            return false;
        text += size + !last;
    }
    if (!blocks->has_shape && blocks->count == 0)
        return say(blocks, "no homes in it");
    if (blocks->told != NOT_TOLD && blocks->told != blocks->count)
        return say(blocks, "the text is cut off, or has lines too many: it tells of %lu homes and has %lu",
                   (unsigned long)blocks->told, (unsigned long)blocks->count);
    return true;
}

bool blocks_read(struct blocks *blocks, const char *path)
{
    char *text, why[300];
    size_t line = 0;
    bool done;

    memset(blocks, 0, sizeof *blocks);
    blocks->told = NOT_TOLD;
    if (!text_file_read(path, &text, why, sizeof why))
        return say(blocks, "%s", why);
    blocks->bytes = (uint8_t *)calloc(MOST_HOMES, BLOCK_SIZE);
    blocks->named = (bool *)calloc(MOST_HOMES, sizeof *blocks->named);
    done = blocks->bytes && blocks->named;
    if (!done)
        say(blocks, "%s: out of memory", path);
    else
        done = text[strspn(text, " \t\r\n")] == '{' ? blocks_read_json(blocks, text, &line) : read_rows(blocks, text, &line);
    free(text);
    if (!done && blocks->bytes && blocks->named) {
        line += line == 0;
        memcpy(why, blocks->message, sizeof why - 1);
        why[sizeof why - 1] = '\0';
        say(blocks, "%.90s:%lu: %.290s", path, (unsigned long)line, why);
    }
    if (!done)
        blocks_free(blocks);
    return done;
}

void blocks_free(struct blocks *blocks)
{
    free(blocks->bytes);
    free(blocks->named);
    blocks->bytes = NULL;
    blocks->named = NULL;
}
