/* Lines of text files that people write. */
#ifndef COMMON_TEXT_LINE_H
#define COMMON_TEXT_LINE_H

#include <stdio.h>

enum text_line { TEXT_LINE, TEXT_END, TEXT_LONG, TEXT_ZERO };

/* The next line without its end; TEXT_ZERO: a zero byte stands in it, as a crash leaves them. At TEXT_END ferror tells why. */
enum text_line text_line_read(FILE *file, char *line, size_t size);

#endif
