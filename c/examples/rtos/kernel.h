/*
 * A small preemptive kernel for a Cortex-M3 or M4, for the example beside it:
 * tasks with priorities, sleep, and mutexes that pass priority on. One
 * processor, no heap; a task holds one mutex at a time.
 */
#ifndef RTOS_KERNEL_H
#define RTOS_KERNEL_H

#include <stdbool.h>
#include <stddef.h>
#include <stdint.h>

enum { RTOS_MOST_TASKS = 12, RTOS_TICKS_A_SECOND = 1000, RTOS_PAINT = 0x5A5A5A5A };

struct rtos_mutex {
    struct rtos_task *owner;
    uint32_t passed_on; /* how often a waiting task has lent its priority */
};

struct rtos_task {
    uint32_t *sp, *stack; /* stack grows down to stack[0] */
    size_t words;
    unsigned priority, own_priority; /* higher goes first; its own comes back with the mutex */
    uint32_t wake;                   /* asleep until this tick */
    bool asleep;
    struct rtos_mutex *waits;
};

/* Before the start. The stack is painted. */
void rtos_add(struct rtos_task *task, void (*run)(void *argument), void *argument, uint32_t *stack, size_t words,
              unsigned priority);

/* The tasks run from now on; does not return. */
void rtos_start(void);

void rtos_sleep(uint32_t ticks);
uint32_t rtos_now(void);          /* in ticks */
uint32_t rtos_microseconds(void); /* since the start */

/* Before the start both do nothing. */
void rtos_take(struct rtos_mutex *mutex);
void rtos_give(struct rtos_mutex *mutex);

/* No other task runs in between; for a few instructions only. */
void rtos_hold(void);
void rtos_let_go(void);

/* The running task; null before the start. */
struct rtos_task *rtos_running(void);

/* Bytes of its stack that a task has ever used. */
size_t rtos_stack_used(const struct rtos_task *task);

#endif
