/* A list of rights as a text file. */
#ifndef RIGHTS_LIST_FILE_H
#define RIGHTS_LIST_FILE_H

#include "kagutin_rights.h"

struct list_file {
    struct kgt_rights list;
    bool locked_out[KAGUTIN_WRITERS]; /* "W nothing" asks for it */
    char message[400];
};

/*
 * Reads lines "W store HOMES", "W read HOMES" and "W nothing". HOMES are up to
 * four of HOME, FROM..TO or all, with blanks or commas between; # begins a
 * comment. False leaves a message with file and line.
 */
bool list_file_read(struct list_file *file, const char *path);

#endif
