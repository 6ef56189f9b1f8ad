/* Homes as text, to carry them from one image into another: JSON, CSV or hex. */
#ifndef CARRY_BLOCKS_H
#define CARRY_BLOCKS_H

#include <stdbool.h>
#include <stddef.h>
#include <stdint.h>

enum { BLOCK_SIZE = 64, MOST_HOMES = 65535 };
#define NOT_TOLD SIZE_MAX

struct blocks {
    size_t groups, homes; /* 0: the text does not say */
    uint8_t *bytes;       /* 64 for each of 65,535 homes; zeros where the text names none */
    bool *named;
    size_t count;   /* homes that the text names */
    size_t told;    /* and how many it says that it does; NOT_TOLD if it does not */
    bool has_shape; /* rows: there is a line with the shape */
    char message[400];
};

/*
 * Reads a file of one of the three kinds, told apart by its first character: '{'
 * is JSON. False leaves a message with file and line, and nothing else.
 */
bool blocks_read(struct blocks *blocks, const char *path);
void blocks_free(struct blocks *blocks);

/* For the readers of both kinds. */
bool blocks_put(struct blocks *blocks, uint64_t home, const uint8_t *block);
bool blocks_hex(const char **text, uint8_t block[BLOCK_SIZE]);
bool blocks_read_json(struct blocks *blocks, const char *text, size_t *line);

#endif
