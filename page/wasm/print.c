/* Formatted output as the inspector uses it: %s, %c, %d, %u, %x, %X, with width, zeros, '-', l and ll. */
#include <stdbool.h>
#include <stdio.h>
#include <string.h>

#include "host.h"

struct page_stream {
    int number;
    size_t filled;
    char text[4096];
};

static struct page_stream out = {1, 0, {0}}, errors = {2, 0, {0}};
FILE *const stdout = &out;
FILE *const stderr = &errors;

/* Where formatted text goes: a stream, or a buffer that is cut off at its size. */
struct sink {
    FILE *stream;
    char *text;
    size_t size, length;
};

int fflush(FILE *stream)
{
    if (stream->filled)
        host_say(stream->number, stream->text, stream->filled);
    stream->filled = 0;
    return 0;
}

int ferror(FILE *stream)
{
    (void)stream;
    return 0;
}

static void put_byte(FILE *stream, char byte)
{
    if (stream->filled == sizeof stream->text)
        fflush(stream);
    stream->text[stream->filled++] = byte;
}

static void put(struct sink *sink, char byte)
{
    if (sink->stream)
        put_byte(sink->stream, byte);
    else if (sink->length + 1 < sink->size)
        sink->text[sink->length] = byte;
    sink->length++;
}

/* How one conversion is written. */
struct form {
    bool left, zeros;
    int width, longs;
};

static const char *read_form(const char *format, struct form *form)
{
    form->left = form->zeros = false;
    form->width = form->longs = 0;
    for (;; format++)
        if (*format == '-')
            form->left = true;
        else if (*format == '0')
            form->zeros = true;
        else
            break;
    for (; *format >= '0' && *format <= '9'; format++)
        form->width = 10 * form->width + *format - '0';
    for (; *format == 'l'; format++)
        form->longs++;
    return format;
}

static void put_padded(struct sink *sink, const struct form *form, const char *text, size_t length)
{
    size_t pad = (size_t)form->width > length ? (size_t)form->width - length : 0, i;

    for (i = 0; !form->left && i < pad; i++)
        put(sink, form->zeros ? '0' : ' ');
    for (i = 0; i < length; i++)
        put(sink, text[i]);
    for (i = 0; form->left && i < pad; i++)
        put(sink, ' ');
}

static void put_number(struct sink *sink, const struct form *form, unsigned long long number, bool negative, char kind)
{
    const char *digits = kind == 'X' ? "0123456789ABCDEF" : "0123456789abcdef";
    unsigned base = kind == 'x' || kind == 'X' ? 16 : 10;
    char text[24];
    size_t at = sizeof text;

    do {
        text[--at] = digits[number % base];
        number /= base;
    } while (number);
    if (negative)
        text[--at] = '-';
    put_padded(sink, form, text + at, sizeof text - at);
}

static void put_signed(struct sink *sink, const struct form *form, long long number)
{
    put_number(sink, form, number < 0 ? 0 - (unsigned long long)number : (unsigned long long)number, number < 0, 'd');
}

/* va_list is a pointer here, so that a conversion moves the caller's on. */
static void convert(struct sink *sink, const struct form *form, char kind, va_list *arguments)
{
    const char *text;
    char byte;

    switch (kind) {
    case 's':
        text = va_arg(*arguments, const char *);
        put_padded(sink, form, text, strlen(text));
        break;
    case 'c':
        byte = (char)va_arg(*arguments, int);
        put_padded(sink, form, &byte, 1);
        break;
    case 'd':
        put_signed(sink, form,
                   form->longs == 2       ? va_arg(*arguments, long long)
                       : form->longs == 1 ? va_arg(*arguments, long)
                                          : va_arg(*arguments, int));
        break;
    case 'u':
    case 'x':
    case 'X':
        put_number(sink, form,
                   form->longs == 2       ? va_arg(*arguments, unsigned long long)
                       : form->longs == 1 ? va_arg(*arguments, unsigned long)
                                          : va_arg(*arguments, unsigned),
                   false, kind);
        break;
    default: put(sink, kind);
    }
}

static int write_out(struct sink *sink, const char *format, va_list list)
{
    va_list arguments;

    va_copy(arguments, list);
    for (; *format; format++) {
        struct form form;

        if (*format != '%') {
            put(sink, *format);
            continue;
        }
        format = read_form(format + 1, &form);
        convert(sink, &form, *format, &arguments);
    }
    va_end(arguments);
    return (int)sink->length;
}

int vfprintf(FILE *stream, const char *format, va_list arguments)
{
    struct sink sink = {stream, NULL, 0, 0};

    return write_out(&sink, format, arguments);
}

int vsnprintf(char *text, size_t size, const char *format, va_list arguments)
{
    struct sink sink = {NULL, text, size, 0};
    int length = write_out(&sink, format, arguments);

    if (size)
        text[sink.length < size ? sink.length : size - 1] = '\0';
    return length;
}

int printf(const char *format, ...)
{
    va_list arguments;
    int length;

    va_start(arguments, format);
    length = vfprintf(stdout, format, arguments);
    va_end(arguments);
    return length;
}

int fprintf(FILE *stream, const char *format, ...)
{
    va_list arguments;
    int length;

    va_start(arguments, format);
    length = vfprintf(stream, format, arguments);
    va_end(arguments);
    return length;
}

int snprintf(char *text, size_t size, const char *format, ...)
{
    va_list arguments;
    int length;

    va_start(arguments, format);
    length = vsnprintf(text, size, format, arguments);
    va_end(arguments);
    return length;
}

size_t fwrite(const void *bytes, size_t size, size_t count, FILE *stream)
{
    const char *text = bytes;
    size_t i;

    for (i = 0; i < size * count; i++)
        put_byte(stream, text[i]);
    return count;
}

int fputs(const char *text, FILE *stream)
{
    fwrite(text, 1, strlen(text), stream);
    return 0;
}

int puts(const char *text)
{
    fputs(text, stdout);
    put_byte(stdout, '\n');
    return 0;
}

int putchar(int byte)
{
    put_byte(stdout, (char)byte);
    return byte;
}
