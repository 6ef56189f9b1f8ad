/* What all subcommands share: their statuses, messages, options and end. */
#ifndef COMMON_COMMAND_H
#define COMMON_COMMAND_H

#include <stdbool.h>
#include <stdint.h>

/* Refused: the library refuses, or what was asked for is not there, or two things differ. Trouble: a file, memory, or the output. */
enum status { STATUS_DONE = 0, STATUS_REFUSED = 1, STATUS_USAGE = 2, STATUS_TROUBLE = 3 };

/* Names the subcommand in messages; its help is printed by --help and -h. Comes first. */
void command_start(const char *name, const char *help);

/* "name: message" on standard error; quit ends the program, and after STATUS_USAGE points to --help. */
void command_say(const char *format, ...);
void command_quit(int status, const char *format, ...)
#if defined(__GNUC__)
    __attribute__((noreturn, format(printf, 2, 3)))
#endif
    ;

/* --help, -h and --version end the program; a word that begins with '-' and is none of them is refused. False: no option. */
bool command_option(const char *word);

/* The value of an option; refused if it is missing or empty. */
const char *command_value(const char *option, const char *word);

/* A whole number in a range, as the value of an option or a word. */
uint64_t command_number(const char *what, const char *word, uint64_t least, uint64_t most);

/* --base N, for all that read a dump: where the store begins in it. True if the word is this option, and next was its value. */
bool command_base(const char *word, const char *next, uint64_t *base);
enum { COMMAND_MOST_CHIP = 16777216 };

/* Flushes standard output; the status, or STATUS_TROUBLE if it could not be written. */
int command_end(int status);

#endif
