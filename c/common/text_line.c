#include "text_line.h"

enum text_line text_line_read(FILE *file, char *line, size_t size)
{
    size_t length = 0;
    int byte = getc(file);

    if (byte == EOF)
        return TEXT_END;
    for (; byte != EOF && byte != '\n'; byte = getc(file)) {
        if (byte == '\0')
            return TEXT_ZERO;
        if (length + 1 == size)
            return TEXT_LONG;
        line[length++] = (char)byte;
    }
    while (length && line[length - 1] == '\r')
        length--;
    line[length] = '\0';
    return TEXT_LINE;
}
