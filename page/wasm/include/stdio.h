/* What the page's C needs of stdio.h: two streams that the page gathers; see print.c. */
#ifndef PAGE_STDIO_H
#define PAGE_STDIO_H

#include <stdarg.h>
#include <stddef.h>

typedef struct page_stream FILE;
extern FILE *const stdout;
extern FILE *const stderr;

int printf(const char *format, ...);
int fprintf(FILE *stream, const char *format, ...);
int vfprintf(FILE *stream, const char *format, va_list arguments);
int snprintf(char *text, size_t size, const char *format, ...);
int vsnprintf(char *text, size_t size, const char *format, va_list arguments);
int fputs(const char *text, FILE *stream);
int puts(const char *text);
int putchar(int byte);
size_t fwrite(const void *bytes, size_t size, size_t count, FILE *stream);
int fflush(FILE *stream);
int ferror(FILE *stream);

#endif
