/* Logs, strips and newest positions that only damage makes. */
#include "logs.h"
#include "store/kagutin_state_layout.h"

enum {
    STATE_LISTED = 896,
    USED = 1,
    CLOSING = 3,
    HOME_BITS = 12,
    DISTANCE_AT = 14,
    LINK_AT = 27,
    COUNT_AT = 40,
    HIGH_HOME_AT = 53,
    HIGH_AT = 58
};

static void put_number(uint8_t *to, uint64_t number)
{
    int i;

    for (i = 0; i < 8; i++)
        to[i] = (uint8_t)(number >> 8 * i);
}

static uint8_t *group_of(uint64_t place)
{
    return worst.log + KAGUTIN_HEADER_SIZE + KAGUTIN_GROUP_SIZE * ((worst_number(STATE_START) + place / PLACES) % worst.groups);
}

static uint8_t *tag_at(uint64_t place)
{
    return group_of(place) + 8 + 8 * (place % PLACES);
}

static uint64_t tag_of(uint64_t home, uint64_t distance)
{
    return (home & ((1u << HOME_BITS) - 1)) << 2 | home >> HOME_BITS << HIGH_HOME_AT | distance << DISTANCE_AT;
}

static uint64_t closing(uint64_t home, uint64_t distance, uint64_t link, uint64_t count)
{
    return CLOSING | tag_of(home, distance) | link << LINK_AT | count << COUNT_AT;
}

static uint64_t places(void)
{
    return PLACES * (uint64_t)worst.groups;
}

static uint64_t some_home(uint64_t place)
{
    return FREE + place * 29 % (worst.homes - FREE - CHAIN);
}

/* Every entry closes a transaction that began at the first one; a walk that looks at each one's span anew would take their squares. */
void share_first(void)
{
    uint64_t i;

    for (i = 0; i < places(); i++)
        put_number(tag_at(i), closing(some_home(i), i, i > 0, i + 1));
}

/* The last entry belongs to the first transaction, which has been closed: the one walk stops there, and two more follow. */
void last_astray(void)
{
    put_number(tag_at(places() - 1), USED | tag_of(some_home(0), places() - 1));
}

/* Every other entry belongs to the one before, which closes itself. */
void all_astray(void)
{
    uint64_t i;

    for (i = 1; i < places(); i += 2) {
        put_number(tag_at(i), USED | tag_of(some_home(i), 1));
        put_number(tag_at(i - 1), closing(some_home(i), 0, i > 1 ? 2 : 0, 1));
    }
}

/* Transactions of two entries, each inside the one before: what lies lower in a home's chain closes later. */
void nest(void)
{
    uint64_t i, last = places() - 2, many = places() / 2 - 1;

    for (i = 0; i < many; i++) {
        put_number(tag_at(i), USED | tag_of(worst.homes > 192 ? 64 + i % 64 : some_home(i), 0));
        put_number(tag_at(last - i), closing(some_home(i), last - 2 * i, i + 1 < many, 2));
    }
    put_number(tag_at(many), 0);
}

void nest_astray(void)
{
    nest();
    last_astray();
}

/* Tags that look like closing ones of long transactions and read as nothing; the last entry is a commit. */
static void junk(uint64_t home, uint64_t count, uint64_t more)
{
    uint64_t i;

    for (i = 0; i + 1 < places(); i++)
        put_number(tag_at(i), closing(home, i, 0, count) | more);
    put_number(tag_at(places() - 1), closing(FREE, 0, 0, 1));
}

void junk_homes(void)
{
    junk(worst.homes, 1, 0);
}

void junk_bits(void)
{
    junk(FREE, 1, UINT64_C(1) << HIGH_AT);
}

void junk_counts(void)
{
    junk(FREE, 0, 0);
}

static uint64_t owners_first(void)
{
    return worst_number(STATE_WRITERS + STATE_WRITER_FIRST) - PLACES * worst_number(STATE_START);
}

/* Tags with the owner's distance that are no entries, for so many homes from this one on. */
static void look_alike(uint64_t home, uint64_t homes, uint64_t more)
{
    uint64_t i, first = owners_first();

    for (i = first + 1; i + 1 < places(); i++)
        put_number(tag_at(i), tag_of(home + i % homes, i - first) | more);
}

void sought_unused(void)
{
    look_alike(worst_untouched(), 1, 0);
}

/* Closing with number 0, which reads as nothing. */
void sought_closing(void)
{
    look_alike(worst_untouched(), 1, CLOSING);
}

void near_misses(void)
{
    look_alike(worst_untouched(), CHAIN, CLOSING);
}

void near_bands(void)
{
    look_alike(12, 3, CLOSING);
}

void near_alarms(void)
{
    look_alike(24, 6, CLOSING);
}

void near_pumps(void)
{
    look_alike(16, 8, CLOSING);
}

/* The last writer's first entry lies past the next position. */
void strip_out_of_order(void)
{
    worst.state[STATE_MODES + LAST] = STATE_MODE_LOGGING;
    put_number(worst.state + STATE_WRITERS + STATE_WRITER_SIZE * LAST + STATE_WRITER_FIRST, UINT64_C(1) << 40);
}

static void all_positions(uint64_t position, uint64_t step)
{
    uint64_t home;

    for (home = 0; home < worst.homes; home++)
        put_number(worst.newest + KAGUTIN_POSITION_SIZE * home, position + home % step);
}

/* A trim that moves forgets every one of them. */
void positions_at_start(void)
{
    all_positions(PLACES * worst_number(STATE_START), PLACES);
}

/* The list's positions in the strip, too. */
void positions_anywhere(void)
{
    uint64_t i;

    all_positions(PLACES * worst_number(STATE_START), places());
    for (i = 0; i < 4; i++)
        put_number(worst.state + STATE_LISTED + 8 * i, PLACES * worst_number(STATE_START) + i);
}

void turns_wrong(void)
{
    uint64_t i;

    for (i = 0; i + 1 < places(); i++)
        group_of(i)[KAGUTIN_BLOCK_SIZE * (i % PLACES + 2) - 1] ^= 0x80;
}

/* One bit of every fourth tag is flipped, by a fixed seed. */
void tags_anyhow(void)
{
    uint64_t seed = 1, i;

    for (i = 0; i < places(); i += 4) {
        seed = seed * UINT64_C(6364136223846793005) + UINT64_C(1442695040888963407);
        tag_at(i)[seed >> 40 & 7] ^= (uint8_t)(1u << (seed >> 48 & 7));
    }
}
