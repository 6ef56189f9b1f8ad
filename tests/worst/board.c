/*
 * Worst cases on a bare board: every call on every log. The board's timer counts to one instruction where the emulator lets its
 * clock go on by 64 ns with each (-icount shift=6), since a tick is shorter. Lines as on the host, and the instructions.
 */
#include "logs.h"
#include "say.h"

/* The first timer of an mps2 board. */
#define TIMER_CONTROL (*(volatile uint32_t *)0x40000000)
#define TIMER_NOW (*(volatile uint32_t *)0x40000004)
#define TIMER_RELOAD (*(volatile uint32_t *)0x40000008)

enum { NS_EACH_TICK = 40, NS_EACH_INSTRUCTION = 64 };

static uint64_t no_call(void)
{
    return 0;
}

static __attribute__((noinline)) uint32_t ticks_of(uint64_t (*run)(void), uint64_t *answer)
{
    uint32_t start = TIMER_NOW;

    *answer = run();
    return start - TIMER_NOW;
}

static unsigned long instructions(uint32_t ticks)
{
    return (unsigned long)(((uint64_t)ticks * NS_EACH_TICK + NS_EACH_INSTRUCTION / 2) / NS_EACH_INSTRUCTION);
}

static void say_field(const char *text)
{
    say(text);
    say("\t");
}

static void make_call(const struct worst_log *log, const struct worst_call *call)
{
    uint64_t answer, none;
    uint32_t ticks;

    worst_restore();
    call->prepare();
    ticks = ticks_of(call->run, &answer);
    ticks -= ticks_of(no_call, &none);
    say_number((unsigned long)worst.groups);
    say("\t");
    say_number((unsigned long)worst.homes);
    say("\t");
    say_field(log->name);
    say_field(log->damage ? "damaged" : "valid");
    say_field(call->name);
    say_field(call->variant);
    say_number((unsigned long)answer);
    say("\t");
    say_number(instructions(ticks));
    say("\n");
}

static int go(size_t groups, size_t homes)
{
    size_t i, k;

    for (i = 0; i < worst_log_count; i++) {
        if (!worst_make(&worst_logs[i], groups, homes)) {
            say(worst_logs[i].name);
            say(" cannot be made\n");
            return 1;
        }
        for (k = 0; k < worst_call_count; k++)
            make_call(&worst_logs[i], &worst_calls[k]);
    }
    return 0;
}

int main(void)
{
    TIMER_RELOAD = UINT32_MAX;
    TIMER_NOW = UINT32_MAX;
    TIMER_CONTROL = 1;
    return go(64, 64) || go(64, 1024) || go(WORST_GROUPS, WORST_HOMES);
}
