/* What the fuzzers share: the bytes as a file. */
#ifndef FUZZ_FILE_H
#define FUZZ_FILE_H

#include <stddef.h>
#include <stdint.h>

/* The name of a file that holds these bytes until the next call. */
const char *fuzz_file(const uint8_t *bytes, size_t size);

#endif
