/* Start of a bare Cortex-M board, and semihosting: the emulator prints the text and takes the exit status. */
#include <stdint.h>
#include <string.h>

#include "say.h"

enum { SYS_WRITE0 = 0x04, SYS_EXIT_EXTENDED = 0x20, APPLICATION_EXIT = 0x20026 };

extern char bss_start[], bss_end[], data_start[], data_end[], data_load[], stack_top[];
int main(void);
void board_start(void);

static void semihost(uint32_t operation, const void *argument)
{
    register uint32_t r0 __asm__("r0") = operation;
    register const void *r1 __asm__("r1") = argument;

    __asm__ volatile("bkpt 0xab" : "+r"(r0) : "r"(r1) : "memory");
}

void say(const char *text)
{
    semihost(SYS_WRITE0, text);
}

void say_number(unsigned long number)
{
    char digits[12];
    char *at = digits + sizeof digits - 1;

    *at = '\0';
    do
        *--at = (char)('0' + number % 10);
    while (number /= 10);
    say(at);
}

static void leave(int status)
{
    uint32_t block[2] = {APPLICATION_EXIT, (uint32_t)status};

    semihost(SYS_EXIT_EXTENDED, block);
    for (;;)
        ;
}

void board_start(void)
{
    memcpy(data_start, data_load, (size_t)(data_end - data_start));
    memset(bss_start, 0, (size_t)(bss_end - bss_start));
    leave(main());
}

static void fault(void)
{
    say("a fault\n");
    leave(3);
}

/* The first stack pointer, then the start and the faults. */
__attribute__((section(".vectors"), used)) static void (*const vectors[16])(void) = {
    (void (*)(void))(uintptr_t)stack_top, board_start, fault, fault, fault, fault, fault, fault,
};
