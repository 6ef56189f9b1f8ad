/*
 * Power cuts for the station: again and again inside a write to the FRAM the
 * processor is reset; the chip and the notebook stay. After each start the
 * counts must be whole, and none that was confirmed may be gone. Prints a
 * report; status 0, or 1 if something was wrong.
 */
#include <string.h>

#include "say.h"
#include "station.h"

enum { CUTS = 40, MARK = 0x52544F53, LONGEST = 7000 /* microseconds that the first task may wait for the lock */ };

uint32_t draw(uint32_t limit)
{
    kept->random = kept->random * 1664525u + 1013904223u;
    return (kept->random >> 8) % limit;
}

void must(bool right, const char *what)
{
    if (right || kept->wrong)
        return;
    kept->wrong = what;
    if (rtos_running())
        chip_power_gone(); /* the next start reports it */
}

/* Power is gone: the processor is reset. */
void chip_power_gone(void)
{
    if (rtos_running())
        note_use();
    must(kept->seen.longest_wait < LONGEST, "the first task waits for the lock's owner alone");
    kept->seen.failures += kept->chip.failures;
    *(volatile uint32_t *)0xE000ED0Cu = 0x05FA0004u;
    for (;;)
        ;
}

/* A cut comes after some bytes, now and then inside the opening; the bus fails a little before some of them. */
static void plan_cut(void)
{
    kept->chip.until_cut = kept->starts % 5 == 0 ? 1 + draw(9000) : 9000 + draw(60000);
    kept->chip.until_failure = kept->starts % 2 == 0 ? 15000 + draw(60000) : 0;
    kept->chip.failures = 0;
    kept->chip.write_enabled = 0;
}

/* ---- the report ---- */

static void say_line(const char *before, uint32_t number, const char *behind)
{
    say(before);
    say_number(number);
    say(behind);
}

static int report(void)
{
    if (kept->wrong) {
        say("rtos: WRONG: not so: ");
        say(kept->wrong);
        say_line(", at start ", kept->starts, "\n");
        return 1;
    }
    say_line("rtos: ", CUTS, " power cuts inside a write; every pair whole, no confirmed count lost\n");
    say_line("  ", kept->seen.commits, " commits by 8 tasks, ");
    say_line("", kept->seen.full, " answers that the log is full\n");
    say_line("  ", kept->seen.failures, " failures of the bus, ");
    say_line("", kept->seen.reopened, " openings after one, without a restart\n");
    say_line("  ", kept->seen.passed_on, " times the lock passed priority on; the first task waited ");
    say_line("", kept->seen.longest_wait, " microseconds for it at most\n");
    say_line("  stack: ", kept->seen.task_stack, " bytes in a task, ");
    say_line("", kept->seen.maintain_stack, " in the one that maintains\n");
    say_line("  RAM: ", (uint32_t)store_ram(), " bytes for the store, ");
    say_line("", (uint32_t)tasks_ram(), " for tasks and their stacks\n");
    return 0;
}

int main(void)
{
    bool last;

    if (kept->mark != MARK) {
        memset(kept, 0, sizeof *kept);
        must(format_store(), "a format");
        kept->mark = MARK;
    }
    last = ++kept->starts > CUTS || kept->wrong;
    if (last)
        kept->chip.until_cut = kept->chip.until_failure = 0;
    else
        plan_cut();
    must(start_store(), "an opening");
    if (last || kept->wrong)
        return report();
    run_tasks();
    return 1;
}
