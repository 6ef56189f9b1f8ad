/* The list of rights: its bytes, and the transaction that stores it. */
#include <string.h>

#include "kagutin_chains.h"
#include "kagutin_rights.h"
#include "kagutin_store_inner.h"

/* By writer: ranges to store, then to read; each first home and number of homes, 16 bits. */
enum { RANGE = 4, READS = KGT_RIGHTS_RANGES * RANGE, WRITER = 2 * READS, MOST = 65535 };

void kgt_rights_clear(struct kgt_rights *list)
{
    memset(list->bytes, 0, sizeof list->bytes);
}

static struct kgt_range range_at(const struct kgt_rights *list, size_t at)
{
    const uint8_t *bytes = list->bytes + at;
    struct kgt_range range;

    range.first = (uint64_t)bytes[0] | (uint64_t)bytes[1] << 8;
    range.number = (uint64_t)bytes[2] | (uint64_t)bytes[3] << 8;
    return range;
}

static void put_range(uint8_t *bytes, uint64_t first, uint64_t number)
{
    bytes[0] = (uint8_t)first;
    bytes[1] = (uint8_t)(first >> 8);
    bytes[2] = (uint8_t)number;
    bytes[3] = (uint8_t)(number >> 8);
}

/* Puts a range into the first empty one of a writer's four. */
static bool allow(struct kgt_rights *list, uint64_t writer, size_t kind, uint64_t first, uint64_t number)
{
    size_t at, end;

    if (writer >= KAGUTIN_WRITERS || first > MOST || number > MOST)
        return false;
    if (number == 0)
        return true;
    at = WRITER * (size_t)writer + kind;
    for (end = at + READS; at < end; at += RANGE)
        if (range_at(list, at).number == 0) {
            put_range(list->bytes + at, first, number);
            return true;
        }
    return false;
}

bool kgt_rights_allow_store(struct kgt_rights *list, uint64_t writer, uint64_t first, uint64_t number)
{
    return allow(list, writer, 0, first, number);
}

bool kgt_rights_allow_read(struct kgt_rights *list, uint64_t writer, uint64_t first, uint64_t number)
{
    return allow(list, writer, READS, first, number);
}

struct kgt_range kgt_rights_store_range(const struct kgt_rights *list, uint64_t writer, unsigned index)
{
    return range_at(list, WRITER * (size_t)writer + RANGE * (size_t)index);
}

struct kgt_range kgt_rights_read_range(const struct kgt_rights *list, uint64_t writer, unsigned index)
{
    return range_at(list, WRITER * (size_t)writer + READS + RANGE * (size_t)index);
}

bool kgt_rights_is_list(const struct kgt_rights *list)
{
    size_t i;

    for (i = 0; i < sizeof list->bytes; i++)
        if (list->bytes[i])
            return true;
    return false;
}

static bool of_list(uint64_t home)
{
    return home >= KGT_RIGHTS_HOME && home < KGT_RIGHTS_HOME + KGT_RIGHTS_HOMES;
}

static bool in_one(const struct kgt_rights *list, size_t at, uint64_t home)
{
    size_t end;

    for (end = at + READS; at < end; at += RANGE) {
        struct kgt_range range = range_at(list, at);

        if (home >= range.first && home < range.first + range.number)
            return true;
    }
    return false;
}

bool kgt_rights_may_store(const struct kgt_rights *list, uint64_t writer, uint64_t home)
{
    if (of_list(home))
        return writer == 0;
    return !kgt_rights_is_list(list) || in_one(list, WRITER * (size_t)writer, home);
}

bool kgt_rights_may_read(const struct kgt_rights *list, uint64_t writer, uint64_t home)
{
    return of_list(home) || !kgt_rights_is_list(list) || in_one(list, WRITER * (size_t)writer + READS, home);
}

/* ---- on the store object ---- */

static struct kagutin_reply set_once(struct kagutin *store, const struct kgt_rights *list)
{
    return kgt_inner_run(store,
                         kagutin_transact(KGT_MEMORY(store), list->bytes, sizeof list->bytes, KGT_BATCH(store), 0,
                                          KGT_RIGHTS_HOME));
}

struct kgt_ticket kgt_set_rights(struct kagutin *store, const struct kgt_rights *list)
{
    struct kgt_reply reply = kgt_inner_enter(store);
    struct kagutin_reply set;

    if (reply.code != KAGUTIN_DONE)
        return kgt_inner_ticket(reply, 0);
    set = set_once(store, list);
    if (set.code == KAGUTIN_FULL && kgt_inner_make_room(store, &set))
        set = set_once(store, list);
    return kgt_inner_ticket(kgt_inner_leave(store, set), set.figure);
}

struct kgt_reply kgt_get_rights(struct kagutin *store, uint64_t writer, struct kgt_rights *list)
{
    struct kgt_reply reply = kgt_inner_enter(store);

    if (reply.code != KAGUTIN_DONE)
        return reply;
    return kgt_inner_leave(store, kagutin_fetch(KGT_MEMORY(store), list->bytes, sizeof list->bytes, writer, KGT_RIGHTS_HOME));
}
