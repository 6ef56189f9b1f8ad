/*
 * Stands between libpmemobj and libpmem and counts what is flushed, in whole
 * cache lines, or synced, in whole pages. Linked into a program of its own, so that it costs the timed
 * one nothing.
 */
#define _GNU_SOURCE
#include <dlfcn.h>
#include <libpmem.h>
#include <stdint.h>
#include <string.h>

#include "workload.h"

enum { LINE = 64, PAGE = 4096 };

static uint64_t flushed;

uint64_t flushed_bytes(void);

uint64_t flushed_bytes(void)
{
    return flushed;
}

static void count(const void *address, size_t size, size_t unit)
{
    uintptr_t first = (uintptr_t)address / unit, end = ((uintptr_t)address + size + unit - 1) / unit;

    if (size)
        flushed += (uint64_t)(end - first) * unit;
}

/* The function of that name that libpmem has, put where pointer points. */
static void find(const char *name, void *pointer)
{
    void *function = dlsym(RTLD_NEXT, name);

    if (!function)
        fail("libpmem has no %s", name);
    memcpy(pointer, &function, sizeof function);
}

void pmem_flush(const void *address, size_t size)
{
    static void (*next)(const void *, size_t);

    if (!next)
        find("pmem_flush", &next);
    count(address, size, LINE);
    next(address, size);
}

void pmem_persist(const void *address, size_t size)
{
    static void (*next)(const void *, size_t);

    if (!next)
        find("pmem_persist", &next);
    count(address, size, LINE);
    next(address, size);
}

int pmem_msync(const void *address, size_t size)
{
    static int (*next)(const void *, size_t);

    if (!next)
        find("pmem_msync", &next);
    count(address, size, PAGE);
    return next(address, size);
}

void *pmem_memcpy(void *to, const void *from, size_t size, unsigned flags)
{
    static void *(*next)(void *, const void *, size_t, unsigned);

    if (!next)
        find("pmem_memcpy", &next);
    if (!(flags & PMEM_F_MEM_NOFLUSH))
        count(to, size, LINE);
    return next(to, from, size, flags);
}

void *pmem_memmove(void *to, const void *from, size_t size, unsigned flags)
{
    static void *(*next)(void *, const void *, size_t, unsigned);

    if (!next)
        find("pmem_memmove", &next);
    if (!(flags & PMEM_F_MEM_NOFLUSH))
        count(to, size, LINE);
    return next(to, from, size, flags);
}

void *pmem_memset(void *to, int byte, size_t size, unsigned flags)
{
    static void *(*next)(void *, int, size_t, unsigned);

    if (!next)
        find("pmem_memset", &next);
    if (!(flags & PMEM_F_MEM_NOFLUSH))
        count(to, size, LINE);
    return next(to, byte, size, flags);
}
