#include "command.h"

#include <errno.h>
#include <stdarg.h>
#include <stdio.h>
#include <stdlib.h>
#include <string.h>

#include "kagutin.h"

static const char *name = "kagutin", *help = "";

void command_start(const char *called, const char *text)
{
    name = called;
    help = text;
}

void command_say(const char *format, ...)
{
    va_list arguments;

    fprintf(stderr, "%s: ", name);
    va_start(arguments, format);
    vfprintf(stderr, format, arguments);
    va_end(arguments);
    fputs("\n", stderr);
}

void command_quit(int status, const char *format, ...)
{
    va_list arguments;

    fprintf(stderr, "%s: ", name);
    va_start(arguments, format);
    vfprintf(stderr, format, arguments);
    va_end(arguments);
    fputs("\n", stderr);
    if (status == STATUS_USAGE)
        fprintf(stderr, "Try %s%s --help.\n", strcmp(name, "kagutin") == 0 ? "" : "kagutin ", name);
    exit(status);
}

int command_end(int status)
{
    if (fflush(stdout) == 0 && !ferror(stdout))
        return status;
    command_say("cannot write the output");
    return STATUS_TROUBLE;
}

bool command_option(const char *word)
{
    if (word[0] != '-' || !word[1])
        return false;
    if (strcmp(word, "--help") == 0 || strcmp(word, "-h") == 0) {
        fputs(help, stdout);
        exit(command_end(STATUS_DONE));
    }
    if (strcmp(word, "--version") == 0) {
        printf(strcmp(name, "kagutin") == 0 ? "%s " KAGUTIN_VERSION "\n" : "%s (Kagutin) " KAGUTIN_VERSION "\n", name);
        exit(command_end(STATUS_DONE));
    }
    command_quit(STATUS_USAGE, "unknown option '%s'", word);
    return true;
}

const char *command_value(const char *option, const char *word)
{
    if (!word || !*word)
        command_quit(STATUS_USAGE, "%s takes a value", option);
    return word;
}

uint64_t command_number(const char *what, const char *word, uint64_t least, uint64_t most)
{
    const char *text = command_value(what, word);
    unsigned long long number;
    char *end;

    errno = 0;
    number = strtoull(text, &end, 10);
    if (text[0] < '0' || text[0] > '9' || *end || errno || number < least || number > most)
        command_quit(STATUS_USAGE, "%s takes a whole number from %llu to %llu, not '%s'", what, (unsigned long long)least,
                     (unsigned long long)most, text);
    return number;
}

bool command_base(const char *word, const char *next, uint64_t *base)
{
    if (strcmp(word, "--base") != 0)
        return false;
    *base = command_number(word, next, 0, COMMAND_MOST_CHIP - 1);
    return true;
}
