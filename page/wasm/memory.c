/* Bytes and memory for C that runs without a library. */
#include <stdint.h>
#include <stdlib.h>
#include <string.h>

enum { PAGE = 65536, ALIGN = 16 };

extern uint8_t __heap_base; /* wasm-ld's name for the end of static memory and stack */

void *memcpy(void *restrict to, const void *restrict from, size_t size)
{
    uint8_t *out = to;
    const uint8_t *in = from;

    while (size-- > 0)
        *out++ = *in++;
    return to;
}

void *memmove(void *to, const void *from, size_t size)
{
    uint8_t *out = to;
    const uint8_t *in = from;

    if (out < in)
        return memcpy(to, from, size);
    while (size-- > 0)
        out[size] = in[size];
    return to;
}

void *memset(void *to, int byte, size_t size)
{
    uint8_t *out = to;

    while (size-- > 0)
        *out++ = (uint8_t)byte;
    return to;
}

int memcmp(const void *one, const void *other, size_t size)
{
    const uint8_t *a = one, *b = other;

    for (; size > 0; size--, a++, b++)
        if (*a != *b)
            return *a < *b ? -1 : 1;
    return 0;
}

size_t strlen(const char *text)
{
    size_t length = 0;

    while (text[length])
        length++;
    return length;
}

int strcmp(const char *one, const char *other)
{
    while (*one && *one == *other) {
        one++;
        other++;
    }
    return (unsigned char)*one - (unsigned char)*other;
}

char *strstr(const char *text, const char *part)
{
    size_t length = strlen(part);

    for (; strlen(text) >= length; text++)
        if (memcmp(text, part, length) == 0)
            return (char *)(uintptr_t)text;
    return NULL;
}

/*
 * Memory is taken from one end; when all that was taken since the last
 * memory_keep is free it is taken anew. New pages are zeros.
 */
static uintptr_t base, next, touched; /* touched: below it bytes may have been written */
static size_t taken;

void memory_keep(void)
{
    base = next;
    taken = 0;
}

void *calloc(size_t count, size_t size)
{
    uintptr_t begin, end;
    size_t pages = (size_t)__builtin_wasm_memory_size(0);

    if (next == 0)
        base = next = touched = (uintptr_t)&__heap_base;
    begin = (next + ALIGN - 1) / ALIGN * ALIGN;
    if (size && count > (UINT32_MAX - begin) / size)
        return NULL;
    end = begin + count * size;
    if (end > pages * PAGE && __builtin_wasm_memory_grow(0, (end - pages * PAGE + PAGE - 1) / PAGE) == SIZE_MAX)
        return NULL;
    if (begin < touched)
        memset((void *)begin, 0, (touched < end ? touched : end) - begin);
    next = end;
    touched = touched < end ? end : touched;
    taken++;
    return (void *)begin;
}

void free(void *memory)
{
    if (memory && --taken == 0)
        next = base;
}
