/* A serial FRAM or MRAM. */
#include "kagutin_fram.h"

#include <string.h>

enum { WRITE_ENABLE = 0x06, WRITE = 0x02, READ = 0x03 };
enum { WORD = 8, COPY = 32, USED = 12 }; /* distance of the header's copies; bytes of it that are not always zero */

#define BAD_RANGE (-1) /* the header is loaded and written whole, but for zeros in its first word */

static int transfer(struct kgt_fram *fram, uint8_t what, uint32_t at, const uint8_t *out, uint8_t *in, size_t size)
{
    uint8_t command[4];
    unsigned i;

    command[0] = what;
    for (i = 0; i < fram->address_bytes; i++)
        command[1 + i] = (uint8_t)(at >> 8 * (fram->address_bytes - 1 - i));
    return fram->transfer(fram->bus, command, 1 + fram->address_bytes, out, in, size);
}

static int write_bytes(struct kgt_fram *fram, size_t at, const uint8_t *bytes, size_t size)
{
    uint8_t enable = WRITE_ENABLE;
    int error = fram->transfer(fram->bus, &enable, 1, NULL, NULL, 0);

    return error ? error : transfer(fram, WRITE, fram->base + (uint32_t)at, bytes, NULL, size);
}

static bool whole(const uint8_t *copy)
{
    size_t i;

    for (i = 0; i < USED; i++)
        if ((copy[i] ^ copy[USED + i]) != 0xFF)
            return false;
    return true;
}

/* Is the start of one copy above that of the other? */
static bool later(const uint8_t *one, const uint8_t *other)
{
    size_t i;

    for (i = 7; i >= 2; i--)
        if (one[i] != other[i])
            return one[i] > other[i];
    return false;
}

/* Finds the copy that counts: the whole one with the higher start. False if neither is whole. */
static bool find_newest(struct kgt_fram *fram, const uint8_t *copies)
{
    bool first = whole(copies), second = whole(copies + COPY);

    fram->newest = !first || (second && later(copies + COPY, copies));
    return first || second;
}

/* Makes the header of the two copies that stand in its place; zeros if neither is whole. */
static void join_header(struct kgt_fram *fram, uint8_t *header)
{
    uint8_t copies[2 * COPY];

    memcpy(copies, header, sizeof copies);
    memset(header, 0, KAGUTIN_HEADER_SIZE);
    if (find_newest(fram, copies))
        memcpy(header, copies + COPY * fram->newest, USED);
}

/*
 * The older copy goes first, so that a cut leaves the newest header or none.
 * The chip is asked which that is: a format need not have loaded anything.
 */
static int wipe_header(struct kgt_fram *fram)
{
    static const uint8_t none[COPY] = {0};
    uint8_t copies[2 * COPY];
    int error = transfer(fram, READ, fram->base, NULL, copies, sizeof copies);

    if (error)
        return error;
    find_newest(fram, copies);
    error = write_bytes(fram, COPY * (size_t)(1 - fram->newest), none, sizeof none);
    return error ? error : write_bytes(fram, COPY * (size_t)fram->newest, none, sizeof none);
}

/*
 * A first word of zeros, which a format writes alone and then with the rest,
 * wipes both copies; anything else goes to the older one.
 */
static int write_header(struct kgt_fram *fram, const uint8_t *header, size_t size)
{
    static const uint8_t no_mark[WORD] = {0};
    uint8_t copy[2 * USED];
    unsigned older = 1 - fram->newest;
    size_t i;
    int error;

    if (size != WORD && size != KAGUTIN_HEADER_SIZE)
        return BAD_RANGE;
    if (memcmp(header, no_mark, WORD) == 0)
        return wipe_header(fram);
    if (size == WORD)
        return BAD_RANGE;
    for (i = 0; i < USED; i++) {
        copy[i] = header[i];
        copy[USED + i] = (uint8_t)~header[i];
    }
    error = write_bytes(fram, COPY * (size_t)older, copy, sizeof copy);
    if (!error)
        fram->newest = older;
    return error;
}

static int load(void *context, enum kgt_area area, size_t at, uint8_t *bytes, size_t size)
{
    struct kgt_fram *fram = (struct kgt_fram *)context;
    size_t from = area == KGT_LOG ? at : fram->log_size + at;
    int error;

    if (from < KAGUTIN_HEADER_SIZE && (from != 0 || size < KAGUTIN_HEADER_SIZE))
        return BAD_RANGE;
    error = transfer(fram, READ, fram->base + (uint32_t)from, NULL, bytes, size);
    if (!error && from == 0)
        join_header(fram, bytes);
    return error;
}

static int write(void *context, enum kgt_area area, size_t at, const uint8_t *bytes, size_t size)
{
    struct kgt_fram *fram = (struct kgt_fram *)context;
    size_t from = area == KGT_LOG ? at : fram->log_size + at;

    if (from >= KAGUTIN_HEADER_SIZE)
        return write_bytes(fram, from, bytes, size);
    return from == 0 ? write_header(fram, bytes, size) : BAD_RANGE;
}

static int fence(void *context)
{
    (void)context; /* a transfer returns when its bytes are in the chip */
    return 0;
}

void kgt_fram_init(struct kgt_fram *fram, size_t groups, uint32_t base, unsigned address_bytes,
                   int (*board)(void *bus, const uint8_t *command, size_t command_size, const uint8_t *out, uint8_t *in,
                                size_t size),
                   void *bus)
{
    fram->transfer = board;
    fram->bus = bus;
    fram->base = base;
    fram->address_bytes = address_bytes;
    fram->log_size = KGT_LOG_SIZE(groups);
    fram->newest = 1;
}

struct kgt_driver kgt_fram_driver(struct kgt_fram *fram)
{
    struct kgt_driver driver;

    driver.context = fram;
    driver.load = load;
    driver.write = write;
    driver.fence = fence;
    driver.landing = KGT_LANDS_WORDS;
    return driver;
}
