/* The example's two halves: tasks on a store (station.c), and the power cuts that try it (cuts.c). */
#ifndef RTOS_STATION_H
#define RTOS_STATION_H

#include "chip.h"
#include "kagutin_fram.h"
#include "kernel.h"

enum { GROUPS = 16, HOMES = 48, TASKS = 8, PAIR = 32 /* homes of task w: 32 + w and 40 + w */ };

/* What outlives a reset: the chip, and the test's notebook. */
struct kept {
    uint32_t mark, starts, random;
    uint64_t asked[TASKS], confirmed[TASKS]; /* counts that a task has begun to store; that no cut may take away */
    struct {
        uint32_t commits, full, reopened, passed_on, longest_wait, task_stack, maintain_stack, failures;
    } seen;
    const char *wrong; /* what was not as it must be, or null */
    struct chip chip;
};

extern struct kept kept_memory; /* given to the linker */
static struct kept *const kept = &kept_memory;

/* ---- cuts.c ---- */

/* Notes what is wrong, and goes to the report. */
void must(bool right, const char *what);

/* A number below the limit. */
uint32_t draw(uint32_t limit);

/* ---- station.c ---- */

/* Once in the device's life. */
bool format_store(void);

/* After every start; then the counts are held against the notebook. */
bool start_store(void);

/* The tasks run from now on; does not return. */
void run_tasks(void);

/* What the tasks have used so far goes to the notebook. */
void note_use(void);

/* RAM of the store, of the tasks and their stacks. */
size_t store_ram(void);
size_t tasks_ram(void);

#endif
