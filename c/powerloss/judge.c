/* What comes back of a driver's writes, held against its duties. */
#include "kagutin_powerloss_inner.h"

#include <string.h>

enum { WORD = 8 };

/* A word or block, by its place in the image: log, then homes. */
struct unit {
    size_t from, size;
    const uint8_t *found;
};

/* What this call has written to the unit, or null. */
static const uint8_t *written(const struct kgt_powerloss *kit, unsigned call, const struct unit *unit)
{
    const struct kgt_powerloss_call *write = &kit->calls[call];
    size_t from = write->area == KGT_LOG ? write->at : kit->log_size + write->at;

    if (write->called != KGT_CALLED_WRITE || write->outcome == KGT_PL_NOT_MADE || from > unit->from
        || unit->from + unit->size > from + write->size)
        return NULL;
    return kit->pool + write->bytes + (unit->from - from);
}

static bool is_fence(const struct kgt_powerloss *kit, unsigned call)
{
    return kit->calls[call].called == KGT_CALLED_FENCE && kit->calls[call].outcome == KGT_PL_DONE;
}

static bool same(const struct unit *unit, const uint8_t *bytes)
{
    return bytes && memcmp(unit->found, bytes, unit->size) == 0;
}

/* The last of these calls that wrote what was found; KGT_PL_BY_LOAD if none did. */
static unsigned writer_of(const struct kgt_powerloss *kit, const struct unit *unit, unsigned first, unsigned last)
{
    unsigned call;

    for (call = last; call-- > first;)
        if (same(unit, written(kit, call, unit)))
            return call;
    return KGT_PL_BY_LOAD;
}

static unsigned last_writer(const struct kgt_powerloss *kit, const struct unit *unit, unsigned first, unsigned last)
{
    unsigned call;

    for (call = last; call-- > first;)
        if (written(kit, call, unit))
            return call;
    return KGT_PL_BY_LOAD;
}

/*
 * What may be there: all that was written from first on, and, unless a fence has
 * covered a write since the last load, what that load gave. covered is the last
 * write under a fence.
 */
struct allowed {
    unsigned first, covered;
    bool fenced;
};

static struct allowed find_allowed(const struct kgt_powerloss *kit, const struct unit *unit, unsigned now)
{
    struct allowed allowed = {kit->since, KGT_PL_BY_LOAD, false};
    unsigned call, begin = kit->since, last = KGT_PL_BY_LOAD;

    for (call = kit->since; call < now; call++) {
        if (written(kit, call, unit))
            last = call;
        if (!is_fence(kit, call))
            continue;
        if (last != KGT_PL_BY_LOAD) {
            allowed.first = begin;
            allowed.covered = last;
            allowed.fenced = true;
        }
        begin = call + 1;
        last = KGT_PL_BY_LOAD;
    }
    return allowed;
}

/* Does this byte of what was found stand in one of the writes, or in what the load gave? */
static bool byte_known(const struct kgt_powerloss *kit, const struct unit *unit, size_t i, unsigned first, unsigned last,
                       bool with_given)
{
    unsigned call;

    if (with_given && kit->given[unit->from + i] == unit->found[i])
        return true;
    for (call = first; call < last; call++) {
        const uint8_t *bytes = written(kit, call, unit);

        if (bytes && bytes[i] == unit->found[i])
            return true;
    }
    return false;
}

/* Every byte is from one of these, though not all from the same. */
static bool mixed(const struct kgt_powerloss *kit, const struct unit *unit, unsigned first, unsigned last, bool with_given)
{
    size_t i;

    for (i = 0; i < unit->size; i++)
        if (!byte_known(kit, unit, i, first, last, with_given))
            return false;
    return true;
}

/* Bytes arrive lowest first: low ones of a write, and high ones of something older. */
static bool in_order(const struct kgt_powerloss *kit, const struct unit *unit, const struct allowed *allowed, unsigned now)
{
    unsigned call;
    size_t i;

    if (!kit->bytes_in_order || unit->from < KAGUTIN_HEADER_SIZE)
        return false;
    for (call = allowed->first; call < now; call++) {
        const uint8_t *bytes = written(kit, call, unit);

        for (i = 0; bytes && i < unit->size && bytes[i] == unit->found[i]; i++)
            ;
        for (; bytes && i < unit->size && byte_known(kit, unit, i, allowed->first, call, !allowed->fenced); i++)
            ;
        if (bytes && i == unit->size)
            return true;
    }
    return false;
}

/* A header without its first word is none: a driver may show zeros for the rest of it. */
static bool of_no_header(const struct kgt_powerloss *kit, const struct unit *unit)
{
    static const uint8_t zeros[WORD] = {0};

    return unit->from < KAGUTIN_HEADER_SIZE && unit->size == WORD && same(unit, zeros) && memcmp(kit->loaded, zeros, WORD) == 0;
}

static bool is_allowed(const struct kgt_powerloss *kit, const struct unit *unit, const struct allowed *allowed, unsigned now)
{
    if (unit->from > 0 && of_no_header(kit, unit))
        return true;
    if (!allowed->fenced && same(unit, kit->given + unit->from))
        return true;
    return writer_of(kit, unit, allowed->first, now) != KGT_PL_BY_LOAD || in_order(kit, unit, allowed, now);
}

/* ---- which duty is broken ---- */

/* Nothing under a fence since the load, which gave something else than what is found now. */
static enum kgt_duty broken_load(const struct kgt_powerloss *kit, const struct unit *unit)
{
    struct unit given = *unit;
    unsigned shown, late = writer_of(kit, unit, kit->previous, kit->since);

    given.found = kit->given + unit->from;
    shown = writer_of(kit, &given, kit->previous, kit->since);
    if (late != KGT_PL_BY_LOAD && (shown == KGT_PL_BY_LOAD || shown < late))
        return KGT_DUTY_LOAD_LAST;
    if (late != KGT_PL_BY_LOAD || same(unit, kit->before + unit->from) || shown != KGT_PL_BY_LOAD)
        return KGT_DUTY_LOAD_STAYS;
    return KGT_DUTY_LOAD_COPIES;
}

static enum kgt_duty broken_duty(const struct kgt_powerloss *kit, const struct unit *unit, const struct allowed *allowed,
                                 unsigned now)
{
    if (allowed->fenced && (same(unit, kit->given + unit->from) || writer_of(kit, unit, kit->since, now) != KGT_PL_BY_LOAD))
        return KGT_DUTY_FENCE;
    if (writer_of(kit, unit, kit->previous, kit->since) != KGT_PL_BY_LOAD || same(unit, kit->before + unit->from))
        return allowed->fenced ? KGT_DUTY_LOAD_LAST : broken_load(kit, unit);
    if (mixed(kit, unit, kit->previous, now, true))
        return KGT_DUTY_WRITE_WHOLE;
    return KGT_DUTY_LOAD_COPIES;
}

/* Where else these bytes were written, if anywhere: a mistaken address. */
static const char *find_elsewhere(struct kgt_powerloss *kit, const struct unit *unit, unsigned now)
{
    static const uint8_t zeros[KAGUTIN_BLOCK_SIZE] = {0};
    unsigned call;
    size_t i;

    if (same(unit, zeros))
        return "it gives zeros that nobody wrote there";
    for (call = now; call-- > 0;) {
        const struct kgt_powerloss_call *write = &kit->calls[call];

        for (i = 0; write->called == KGT_CALLED_WRITE && i + unit->size <= write->size; i += WORD)
            if (write->outcome && same(unit, kit->pool + write->bytes + i)) {
                kit->fault.elsewhere = call;
                kit->fault.elsewhere_at = write->at + (uint32_t)i;
                return "it gives what was written to another place: look for a mistaken address";
            }
    }
    return "it gives bytes that nobody wrote";
}

/* The earlier call that wrote what was found to this place. */
static unsigned find_older(struct kgt_powerloss *kit, const struct unit *unit, unsigned now)
{
    unsigned older = writer_of(kit, unit, 0, now);

    kit->fault.elsewhere_at = (uint32_t)kit->fault.at;
    return older;
}

static const char *find_remark(struct kgt_powerloss *kit, const struct unit *unit, unsigned now)
{
    if (kit->fault.duty == KGT_DUTY_LOAD_COPIES)
        return find_elsewhere(kit, unit, now);
    if (kit->fault.duty != KGT_DUTY_WRITE_WHOLE)
        return NULL;
    if (unit->size > WORD)
        return "blocks of 64 bytes are promised, by KGT_LANDS_BLOCKS";
    if (unit->from < KAGUTIN_HEADER_SIZE)
        return "the header is torn: if the medium does not keep its words whole the driver must, as c/drivers/fram.c does";
    return "words of 8 bytes are promised, by KGT_LANDS_WORDS";
}

static void tell(struct kgt_powerloss *kit, const struct unit *unit, const struct allowed *allowed, unsigned now)
{
    struct kgt_powerloss_fault *fault = &kit->fault;

    memset(fault, 0, sizeof *fault);
    fault->duty = broken_duty(kit, unit, allowed, now);
    fault->area = unit->from < kit->log_size ? KGT_LOG : KGT_HOMES;
    fault->at = unit->from - (fault->area == KGT_LOG ? 0 : kit->log_size);
    fault->size = unit->size;
    fault->writer = allowed->fenced ? allowed->covered : KGT_PL_BY_LOAD;
    if (fault->duty == KGT_DUTY_WRITE_WHOLE && fault->writer == KGT_PL_BY_LOAD)
        fault->writer = last_writer(kit, unit, kit->since, now);
    memcpy(fault->found, unit->found, unit->size);
    memcpy(fault->right, fault->writer == KGT_PL_BY_LOAD ? kit->given + unit->from : written(kit, fault->writer, unit),
           unit->size);
    fault->elsewhere =
        fault->duty == KGT_DUTY_FENCE || fault->duty == KGT_DUTY_LOAD_LAST ? find_older(kit, unit, now) : KGT_PL_BY_LOAD;
    fault->remark = find_remark(kit, unit, now);
}

static bool judge_units(struct kgt_powerloss *kit, unsigned now)
{
    struct unit unit;

    unit.size = kit->driver.landing == KGT_LANDS_BLOCKS ? KAGUTIN_BLOCK_SIZE : WORD;
    for (unit.from = 0; unit.from < kit->image_size; unit.from += unit.size) {
        struct allowed allowed;

        unit.found = kit->loaded + unit.from;
        if (same(&unit, kit->expected + unit.from))
            continue;
        allowed = find_allowed(kit, &unit, now);
        if (is_allowed(kit, &unit, &allowed, now))
            continue;
        tell(kit, &unit, &allowed, now);
        return false;
    }
    return true;
}

bool kgt_pl_judge(struct kgt_powerloss *kit, unsigned now)
{
    if (kit->known && !judge_units(kit, now))
        return false;
    memcpy(kit->before, kit->known ? kit->given : kit->loaded, kit->image_size);
    memcpy(kit->given, kit->loaded, kit->image_size);
    memcpy(kit->expected, kit->loaded, kit->image_size);
    kit->previous = kit->known ? kit->since : now;
    kit->since = now;
    kit->known = true;
    return true;
}

void kgt_pl_expect(struct kgt_powerloss *kit, unsigned call)
{
    const struct kgt_powerloss_call *write = &kit->calls[call];
    size_t from = write->area == KGT_LOG ? write->at : kit->log_size + write->at;

    if (write->called == KGT_CALLED_WRITE)
        memcpy(kit->expected + from, kit->pool + write->bytes, write->size);
}
