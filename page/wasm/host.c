/* The file and the end of a program, as the page gives them; and the FRAM driver's way to read a header. */
#include "host.h"

#include <errno.h>
#include <fcntl.h>
#include <stdio.h>
#include <stdlib.h>
#include <string.h>
#include <sys/file.h>
#include <sys/stat.h>
#include <unistd.h>

#include "kagutin/programs.h"
#include "kagutin_fram.h"

enum { THE_FILE = 3, DIGITS = 10 };

int errno;

char *strerror(int error)
{
    static char text[] = "it cannot be read";

    (void)error;
    return text;
}

void exit(int status)
{
    fflush(stdout);
    fflush(stderr);
    host_leave(status);
}

int open(const char *path, int flags, ...)
{
    (void)path;
    (void)flags;
    return THE_FILE;
}

int fstat(int file, struct stat *status)
{
    (void)file;
    status->st_mode = 1;
    status->st_size = (unsigned long long)host_file_size();
    return 0;
}

int flock(int file, int operation)
{
    (void)file;
    (void)operation;
    return 0;
}

ssize_t pread(int file, void *bytes, size_t size, off_t from)
{
    double left = host_file_size() - (double)from;

    (void)file;
    if (left < (double)size)
        size = left > 0 ? (size_t)left : 0;
    host_file_read(bytes, (size_t)from, size);
    return (ssize_t)size;
}

int close(int file)
{
    (void)file;
    return 0;
}

unsigned long long strtoull(const char *text, char **end, int base)
{
    unsigned long long number = 0;

    (void)base; /* 10 */
    for (; *text >= '0' && *text <= '9'; text++) {
        unsigned digit = (unsigned)(*text - '0');

        if (number > (~0ull - digit) / DIGITS)
            errno = ERANGE;
        number = DIGITS * number + digit;
    }
    *end = (char *)(uintptr_t)text;
    return number;
}

/* ---- the header of a FRAM dump, joined by the driver itself ---- */

static int transfer(void *bus, const uint8_t *command, size_t command_size, const uint8_t *out, uint8_t *in, size_t size)
{
    (void)command;
    (void)command_size;
    (void)out;
    memcpy(in, bus, size);
    return 0;
}

/* Gives the header of the 64 bytes that a FRAM holds in its place; zeros if no copy is whole. */
TO_PAGE(join_header) void page_join_header(uint8_t *header)
{
    uint8_t copies[KAGUTIN_HEADER_SIZE];
    struct kgt_fram fram;
    struct kgt_driver driver;

    memcpy(copies, header, sizeof copies);
    kgt_fram_init(&fram, KAGUTIN_MIN_GROUPS, 0, 2, transfer, copies);
    driver = kgt_fram_driver(&fram);
    driver.load(driver.context, KGT_LOG, 0, header, KAGUTIN_HEADER_SIZE);
}

/* Room for words and bytes that the page hands over. */
TO_PAGE(room) void *page_room(size_t size)
{
    return calloc(1, size);
}

TO_PAGE(inspect) int page_inspect(int count, char **words)
{
    int status = inspect_main(count, words);

    fflush(stdout);
    fflush(stderr);
    return status;
}
