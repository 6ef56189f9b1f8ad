/*
 * The power-loss kit on a bare Cortex-M board: the six broken drivers on a
 * simulated medium, then two drivers by a relay, which is the processor's reset.
 * What outlives a reset lies at kept_memory, which the start does not clear.
 */
#include <string.h>

#include "kagutin_fram.h"
#include "powerloss/broken.h"
#include "say.h"

enum { GROUPS = 4, HOMES = 8, SIZE = KGT_LOG_SIZE(GROUPS) + KGT_HOMES_SIZE(HOMES), MARK = 0x4B505731, MOST_STARTS = 2000 };

struct kept {
    uint32_t mark, starts, asked, turn;
    struct broken_driver broken;
    uint8_t medium[KGT_SIM_MEMORY(SIZE)], notes[2][KGT_RELAY_NOTE];
};

extern struct kept kept_memory; /* given to the linker */
static struct kept *const kept = &kept_memory;

static uint8_t memory[KGT_POWERLOSS_SIZE(GROUPS, HOMES, 48)];
static struct kgt_powerloss kit;
static struct kgt_fram fram;

static const struct {
    enum broken kind;
    enum kgt_duty by_cuts, by_relay;
} duties[BROKEN_KINDS] = {
    {BROKEN_NOT, KGT_DUTIES_KEPT, KGT_DUTIES_KEPT},
    {BROKEN_NO_FENCE, KGT_DUTY_FENCE, KGT_DUTY_FENCE},
    {BROKEN_FENCE_EARLY, KGT_DUTY_FENCE, KGT_DUTY_FENCE},
    {BROKEN_WORDS_TORN, KGT_DUTY_WRITE_WHOLE, KGT_DUTY_WRITE_WHOLE},
    {BROKEN_LOAD_CACHED, KGT_DUTY_LOAD_STAYS, KGT_DUTIES_KEPT},
    {BROKEN_LATE_WRITE, KGT_DUTY_LOAD_LAST, KGT_DUTIES_KEPT},
    {BROKEN_OUT_OF_ORDER, KGT_DUTY_WRITE_TIME, KGT_DUTY_FENCE},
};

static void say_text(void *context, const char *text)
{
    (void)context;
    say(text);
}

static bool prepare(const char *what, const char *driver)
{
    say(what);
    say(driver);
    say(": ");
    kit.say = say_text;
    if (!kgt_powerloss_init(&kit, memory, sizeof memory, GROUPS, HOMES))
        return false;
    kit.say = say_text;
    kit.histories = 1;
    return true;
}

/* ---- cuts of a simulated medium ---- */

static bool found(enum broken kind)
{
    if (!prepare("cuts: ", broken_names[kind]))
        return false;
    broken_init(&kept->broken, kind, kept->medium, GROUPS, HOMES);
    kit.start = broken_start;
    kit.context = &kept->broken;
    kit.medium = kgt_sim_medium(&kept->broken.sim);
    kgt_powerloss_run(&kit);
    return kit.fault.duty == duties[kind].by_cuts;
}

static struct kgt_driver start_fram(void *context)
{
    kgt_fram_init(&fram, GROUPS, 0, 2, kgt_sim_transfer, context);
    return kgt_fram_driver(&fram);
}

static bool fram_passes(void)
{
    if (!prepare("cuts: ", "FRAM"))
        return false;
    kgt_sim_init(&kept->broken.sim, kept->medium, SIZE, 1);
    kit.start = start_fram;
    kit.context = &kept->broken.sim;
    kit.medium = kgt_sim_medium(&kept->broken.sim);
    kit.bytes_in_order = true;
    kit.histories = 0;
    kit.every = 31;
    return kgt_powerloss_run(&kit);
}

/* ---- cuts by a reset ---- */

/* Power goes a few landings after it was asked for; then the processor is reset. */
static void cut(void *context)
{
    (void)context;
    if (kept->asked++) {
        *(volatile uint32_t *)0xE000ED0Cu = 0x05FA0004u;
        for (;;)
            ;
    }
    kept->broken.sim.power = kept->starts * 7 % 13;
}

static int note(void *context, unsigned place, const uint8_t *bytes, size_t size)
{
    (void)context;
    memcpy(kept->notes[place], bytes, size);
    return 0;
}

static int recall(void *context, unsigned place, uint8_t *bytes, size_t size)
{
    (void)context;
    memcpy(bytes, kept->notes[place], size);
    return 0;
}

/* The next driver by the relay, or after a reset the same one. */
static bool by_relay(enum broken kind)
{
    struct kgt_medium medium = kgt_sim_medium(&kept->broken.sim);

    if (kept->starts++ == 0) {
        memset(kept->notes, 0, sizeof kept->notes);
        broken_init(&kept->broken, kind, kept->medium, GROUPS, HOMES);
    }
    medium.cut(medium.context, (enum kgt_choice)(kept->starts % 3), kept->starts);
    kept->asked = 0;
    kgt_powerloss_init(&kit, memory, sizeof memory, GROUPS, HOMES);
    kit.say = say_text;
    kit.start = broken_start;
    kit.context = &kept->broken;
    kit.relay.cut = cut;
    kit.relay.note = note;
    kit.relay.recall = recall;
    kit.histories = 0;
    kit.every = 3;
    if (kept->starts == 1) {
        say("resets: ");
        say(broken_names[kind]);
        say(": ");
    }
    kgt_powerloss_on_board(&kit);
    return kept->starts < MOST_STARTS && kit.fault.duty == duties[kind].by_relay;
}

int main(void)
{
    static const enum broken by_turn[] = {BROKEN_NOT, BROKEN_WORDS_TORN};
    unsigned kind;

    if (kept->mark != MARK) {
        for (kind = BROKEN_NOT; kind < BROKEN_KINDS; kind++)
            if (!found((enum broken)kind))
                return 1;
        if (!fram_passes())
            return 1;
        memset(kept, 0, sizeof *kept);
        kept->mark = MARK;
    }
    for (; kept->turn < sizeof by_turn / sizeof *by_turn; kept->turn++) {
        if (!by_relay(by_turn[kept->turn]))
            return 1;
        say("  after ");
        say_number(kept->starts);
        say(" starts\n");
        kept->starts = 0;
    }
    say("powerloss_board: right\n");
    return 0;
}
