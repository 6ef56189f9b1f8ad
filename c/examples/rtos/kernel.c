/* The kernel: SysTick counts and preempts, PendSV switches. */
#include "kernel.h"

#include <string.h>

#define REGISTER(address) (*(volatile uint32_t *)(uintptr_t)(address))
#define SYSTICK_CONTROL REGISTER(0xE000E010u)
#define SYSTICK_RELOAD REGISTER(0xE000E014u)
#define SYSTICK_VALUE REGISTER(0xE000E018u)
#define INTERRUPT_CONTROL REGISTER(0xE000ED04u)
#define VECTOR_TABLE REGISTER(0xE000ED08u)
#define HANDLER_PRIORITIES REGISTER(0xE000ED20u)

enum { CLOCK = 25000000, TICK = CLOCK / RTOS_TICKS_A_SECOND, PEND_SV = 1 << 28, VECTORS = 16, SAVED = 8, FRAME = 8 };

static struct rtos_task *tasks[RTOS_MOST_TASKS], *running;
static struct rtos_task idle;
static unsigned tasks_added, running_index;
static volatile uint32_t now;
static uint32_t idle_stack[128];
static void (*vectors[VECTORS])(void) __attribute__((aligned(128)));

void rtos_hold(void)
{
    __asm__ volatile("cpsid i" ::: "memory");
}

void rtos_let_go(void)
{
    __asm__ volatile("cpsie i" ::: "memory");
}

static void ask_for_switch(void)
{
    INTERRUPT_CONTROL = PEND_SV;
}

/* ---- which task runs ---- */

static bool is_ready(const struct rtos_task *task)
{
    return !task->asleep && !task->waits;
}

/* The ready task of highest priority; of equal ones the next in turn. The idle one is always ready. */
static void choose(void)
{
    unsigned i, best = running_index;
    bool found = false;

    for (i = 1; i <= tasks_added; i++) {
        unsigned index = (running_index + i) % tasks_added;

        if (is_ready(tasks[index]) && (!found || tasks[index]->priority > tasks[best]->priority)) {
            best = index;
            found = true;
        }
    }
    running_index = best;
    running = tasks[best];
}

/* Called by PendSV: takes the stack pointer of the task that stops, gives that of the one that goes on. */
__attribute__((used)) static uint32_t *switch_task(uint32_t *sp)
{
    rtos_hold();
    running->sp = sp;
    choose();
    rtos_let_go();
    return running->sp;
}

__attribute__((naked)) static void pend_sv(void)
{
    __asm__ volatile("mrs r0, psp\n"
                     "stmdb r0!, {r4-r11}\n"
                     "push {r3, lr}\n"
                     "bl switch_task\n"
                     "pop {r3, lr}\n"
                     "ldmia r0!, {r4-r11}\n"
                     "msr psp, r0\n"
                     "bx lr\n");
}

static void sys_tick(void)
{
    unsigned i;

    now++;
    for (i = 0; i < tasks_added; i++)
        if (tasks[i]->asleep && (int32_t)(now - tasks[i]->wake) >= 0)
            tasks[i]->asleep = false;
    ask_for_switch();
}

/* ---- tasks ---- */

static void ended(void)
{
    for (;;)
        rtos_sleep(RTOS_TICKS_A_SECOND);
}

/* The frame that an exception would have left: registers 0 to 3, 12, link, where it goes on, status. */
static void prepare(struct rtos_task *task, void (*run)(void *argument), void *argument)
{
    uint32_t *frame = task->stack + task->words - FRAME;

    memset(frame, 0, FRAME * sizeof *frame);
    frame[0] = (uint32_t)(uintptr_t)argument;
    frame[5] = (uint32_t)(uintptr_t)ended;
    frame[6] = (uint32_t)(uintptr_t)run & ~1u;
    frame[7] = 0x01000000u;
    task->sp = frame - SAVED;
}

void rtos_add(struct rtos_task *task, void (*run)(void *argument), void *argument, uint32_t *stack, size_t words,
              unsigned priority)
{
    size_t i;

    memset(task, 0, sizeof *task);
    task->stack = stack;
    task->words = words & ~(size_t)1;
    task->priority = task->own_priority = priority;
    for (i = 0; i < words; i++)
        stack[i] = RTOS_PAINT;
    prepare(task, run, argument);
    tasks[tasks_added++] = task;
}

__attribute__((used)) static void do_nothing(void *argument)
{
    (void)argument;
    for (;;)
        __asm__ volatile("wfi");
}

/* From here on the processor uses the task's stack; what main had on its own is not needed any more. */
__attribute__((naked)) static void enter_idle(uint32_t *stack)
{
    (void)stack;
    __asm__ volatile("msr psp, r0\n"
                     "movs r0, #2\n"
                     "msr control, r0\n"
                     "isb\n"
                     "cpsie i\n"
                     "movs r0, #0\n"
                     "b do_nothing\n");
}

void rtos_start(void)
{
    size_t words = sizeof idle_stack / sizeof *idle_stack;

    rtos_hold();
    memcpy(vectors, (const void *)(uintptr_t)VECTOR_TABLE, sizeof vectors);
    vectors[14] = pend_sv;
    vectors[15] = sys_tick;
    VECTOR_TABLE = (uint32_t)(uintptr_t)vectors;
    HANDLER_PRIORITIES |= 0xFFFF0000u; /* both below every other interrupt */
    rtos_add(&idle, do_nothing, NULL, idle_stack, words, 0);
    running_index = tasks_added - 1;
    running = &idle;
    SYSTICK_RELOAD = TICK - 1;
    SYSTICK_VALUE = 0;
    SYSTICK_CONTROL = 7;
    enter_idle(idle_stack + words);
}

struct rtos_task *rtos_running(void)
{
    return running;
}

size_t rtos_stack_used(const struct rtos_task *task)
{
    size_t i;

    for (i = 0; i < task->words && task->stack[i] == RTOS_PAINT; i++)
        ;
    return (task->words - i) * sizeof *task->stack;
}

/* ---- time ---- */

uint32_t rtos_now(void)
{
    return now;
}

uint32_t rtos_microseconds(void)
{
    uint32_t ticks, value;

    do {
        ticks = now;
        value = SYSTICK_VALUE;
    } while (ticks != now);
    return ticks * (1000000 / RTOS_TICKS_A_SECOND) + (TICK - 1 - value) / (CLOCK / 1000000);
}

void rtos_sleep(uint32_t ticks)
{
    rtos_hold();
    running->wake = now + ticks;
    running->asleep = ticks > 0;
    ask_for_switch();
    rtos_let_go();
}

/* ---- mutexes ---- */

/* A task that waits lends its priority to the owner, so that none of middle priority runs before it. */
void rtos_take(struct rtos_mutex *mutex)
{
    if (!running)
        return;
    rtos_hold();
    if (!mutex->owner) {
        mutex->owner = running;
    } else {
        if (mutex->owner->priority < running->priority) {
            mutex->owner->priority = running->priority;
            mutex->passed_on++;
        }
        running->waits = mutex;
        ask_for_switch();
    }
    rtos_let_go(); /* goes on here when the mutex was handed over */
}

/* Hands it to the waiting task of highest priority, which runs at once if that is above the giver's own. */
void rtos_give(struct rtos_mutex *mutex)
{
    struct rtos_task *next = NULL;
    unsigned i;

    if (!running)
        return;
    rtos_hold();
    running->priority = running->own_priority;
    for (i = 0; i < tasks_added; i++)
        if (tasks[i]->waits == mutex && (!next || tasks[i]->priority > next->priority))
            next = tasks[i];
    if (next)
        next->waits = NULL;
    mutex->owner = next;
    ask_for_switch();
    rtos_let_go();
}
