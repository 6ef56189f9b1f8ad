/* One history on the driver, broken off by a cut or a failure. */
#include "kagutin_powerloss_inner.h"

#include <string.h>

#define NEVER_FAILS UINT64_C(0)
#define KEEPS_POWER UINT64_MAX

void kgt_pl_forget(struct kgt_powerloss *kit)
{
    unsigned call;

    for (call = 0; call < kit->made; call++)
        kit->calls[call].outcome = KGT_PL_NOT_MADE;
    kit->known = false;
    kit->since = kit->previous = 0;
    memset(&kit->fault, 0, sizeof kit->fault);
}

bool kgt_pl_answer_fault(struct kgt_powerloss *kit, unsigned call, int error)
{
    memset(&kit->fault, 0, sizeof kit->fault);
    kit->fault.duty = KGT_DUTY_ANSWER;
    kit->fault.call = call;
    kit->fault.error = error;
    return false;
}

bool kgt_pl_uncut(struct kgt_powerloss *kit, unsigned call)
{
    kit->fault.uncut = true;
    kit->fault.call = call;
    return false;
}

static int load_areas(struct kgt_powerloss *kit)
{
    const struct kgt_driver *driver = &kit->driver;
    int error = driver->load(driver->context, KGT_LOG, 0, kit->loaded, kit->log_size);

    return error ? error
                 : driver->load(driver->context, KGT_HOMES, 0, kit->loaded + kit->log_size, kit->image_size - kit->log_size);
}

bool kgt_pl_start(struct kgt_powerloss *kit, unsigned now)
{
    int error;

    kit->driver = kit->start(kit->context);
    error = load_areas(kit);
    return error ? kgt_pl_answer_fault(kit, now, error) : kgt_pl_judge(kit, now);
}

/* The store is opened again in place, by a driver that has failed; one that refuses for good is started anew. */
static bool reopen(struct kgt_powerloss *kit, unsigned now)
{
    return load_areas(kit) ? kgt_pl_start(kit, now) : kgt_pl_judge(kit, now);
}

int kgt_pl_call(struct kgt_powerloss *kit, unsigned number)
{
    struct kgt_powerloss_call *call = &kit->calls[number];
    const struct kgt_driver *driver = &kit->driver;

    if (call->called == KGT_CALLED_START) {
        kit->driver = kit->start(kit->context);
        return load_areas(kit);
    }
    if (call->called == KGT_CALLED_FENCE)
        return driver->fence(driver->context);
    return driver->write(driver->context, (enum kgt_area)call->area, call->at, kit->pool + call->bytes, call->size);
}

/* ---- on a medium ---- */

static bool has_power(const struct kgt_powerloss *kit)
{
    return kit->medium.has_power(kit->medium.context);
}

/* Has the call of the medium been made that was to fail? */
static bool failure_met(const struct kgt_powerloss *kit, uint64_t failing)
{
    uint64_t landings, calls;

    kit->medium.count(kit->medium.context, &landings, &calls);
    return failing > 0 && calls >= failing;
}

/* Makes a call and judges what it loads, if anything. False: a duty is broken. */
static bool make_call(struct kgt_powerloss *kit, unsigned number, const struct kgt_powerloss_end *end, struct kgt_pl_seen *seen)
{
    struct kgt_powerloss_call *call = &kit->calls[number];
    bool last = number == end->call;
    uint64_t failing = last ? end->failing : NEVER_FAILS;
    int error;

    kit->medium.arm(kit->medium.context, last ? end->landings : KEEPS_POWER, failing);
    error = kgt_pl_call(kit, number);
    call->error = error;
    seen->power_failed = !has_power(kit);
    seen->medium_failed = seen->medium_failed || failure_met(kit, failing);
    kit->medium.arm(kit->medium.context, KEEPS_POWER, NEVER_FAILS);
    call->outcome = error || seen->power_failed ? KGT_PL_UNSURE : KGT_PL_DONE;
    kgt_pl_expect(kit, number);
    if (seen->power_failed)
        return true;
    if (error && !seen->medium_failed)
        return kgt_pl_answer_fault(kit, number, error);
    if (error)
        return reopen(kit, number + 1) || kgt_pl_uncut(kit, number);
    return call->called != KGT_CALLED_START || kgt_pl_judge(kit, number + 1) || kgt_pl_uncut(kit, number);
}

/* Power is cut and comes back, and once more with nothing written in between: what a load gave stays. */
static bool cut(struct kgt_powerloss *kit, const struct kgt_powerloss_end *end, unsigned now, struct kgt_pl_seen *seen)
{
    unsigned fences;

    for (fences = 0; fences < end->fences && has_power(kit); fences++)
        kit->driver.fence(kit->driver.context);
    if (end->wait && kit->medium.wait && has_power(kit))
        kit->medium.wait(kit->medium.context);
    seen->open = kit->open = kit->medium.cut(kit->medium.context, end->choice, end->choice_seed);
    if (!kgt_pl_start(kit, now))
        return false;
    kit->medium.cut(kit->medium.context, KGT_NONE_ARRIVE, 0);
    return kgt_pl_start(kit, now);
}

bool kgt_pl_trial(struct kgt_powerloss *kit, const struct kgt_powerloss_end *end, struct kgt_pl_seen *seen)
{
    bool goes_on = end->failing && end->on;
    unsigned call, now = 0;

    kit->trials++;
    memset(seen, 0, sizeof *seen);
    kgt_pl_forget(kit);
    kit->medium.clear(kit->medium.context);
    for (call = 0; call < kit->made && (call <= end->call || goes_on) && !seen->power_failed; call++)
        if (kit->calls[call].taken) {
            if (!make_call(kit, call, end, seen))
                return false;
            now = call + 1;
        }
    return cut(kit, end, now, seen);
}
