/* What the page gives its C. */
#ifndef HOST_H
#define HOST_H

#include <stddef.h>
#include <stdint.h>

#define FROM_PAGE(name) __attribute__((import_module("page"), import_name(#name)))
#define TO_PAGE(name) __attribute__((export_name(#name)))

/* Takes text of a stream: 1 output, 2 errors. */
FROM_PAGE(say) void host_say(int stream, const char *text, size_t size);

/* Does not return: the page leaves the program by an exception, and the instance is not used again. */
FROM_PAGE(leave) __attribute__((noreturn)) void host_leave(int status);

/* The file: its size, and bytes from a place on, all of which must be there. */
FROM_PAGE(file_size) double host_file_size(void);
FROM_PAGE(file_read) void host_file_read(uint8_t *bytes, size_t at, size_t size);

#endif
