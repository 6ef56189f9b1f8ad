/* A stub of Zephyr's header, for the test of zephyr/kagutin_zephyr.c: a mutex that counts. */
#ifndef STUB_ZEPHYR_KERNEL_H
#define STUB_ZEPHYR_KERNEL_H

struct k_mutex {
    unsigned taken, given;
};

typedef struct {
    long ticks;
} k_timeout_t;
#define K_FOREVER ((k_timeout_t){-1})

static inline int k_mutex_lock(struct k_mutex *mutex, k_timeout_t timeout)
{
    (void)timeout;
    mutex->taken++;
    return 0;
}

static inline int k_mutex_unlock(struct k_mutex *mutex)
{
    mutex->given++;
    return 0;
}

#endif
