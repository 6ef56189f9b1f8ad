/* Where the numbers of the state lie that C code reads, as docs/FORMAT.md has them; nothing else in C knows the offsets. */
#ifndef KAGUTIN_STATE_LAYOUT_H
#define KAGUTIN_STATE_LAYOUT_H

enum {
    STATE_GROUPS = 0,
    STATE_HOMES = 8,
    STATE_START = 16,
    STATE_NEXT = 24,
    STATE_SETTLED = 40,
    STATE_FENCED = 48,
    STATE_ROUND = 88,
    STATE_MODES = 104, /* one byte for each writer */
    STATE_MODE_LOGGING = 3,
    STATE_WRITERS = 128, /* their records */
    STATE_WRITER_SIZE = 24,
    STATE_WRITER_FIRST = 8
};

#endif
