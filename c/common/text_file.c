#include "text_file.h"

#include <errno.h>
#include <fcntl.h>
#include <stdlib.h>
#include <string.h>
#include <sys/stat.h>
#include <unistd.h>

enum { MOST = 1 << 25 };

static const char mark[] = "\xef\xbb\xbf";

/* Passes over a byte order mark. */
static void skip_mark(FILE *file)
{
    size_t i;

    for (i = 0; i < 3; i++) {
        int byte = getc(file);

        if (byte == (unsigned char)mark[i])
            continue;
        rewind(file);
        return;
    }
}

FILE *text_file_open(const char *path, char *why, size_t size)
{
    int descriptor = open(path, O_RDONLY | O_NONBLOCK | O_CLOEXEC);
    struct stat status;
    FILE *file;

    if (descriptor < 0) {
        snprintf(why, size, "%s: cannot be opened: %s", path, strerror(errno));
        return NULL;
    }
    if (fstat(descriptor, &status) != 0 || !S_ISREG(status.st_mode)) {
        snprintf(why, size, "%s: not a regular file", path);
        close(descriptor);
        return NULL;
    }
    file = fdopen(descriptor, "rb");
    if (!file) {
        snprintf(why, size, "%s: cannot be opened: %s", path, strerror(errno));
        close(descriptor);
        return NULL;
    }
    skip_mark(file);
    return file;
}

/* How long the file is behind its mark, or one more than is read. */
static size_t room_for(FILE *file)
{
    struct stat status;

    return fstat(fileno(file), &status) == 0 && status.st_size <= MOST ? (size_t)status.st_size + 1 : (size_t)MOST + 1;
}

bool text_file_read(const char *path, char **text, char *why, size_t size)
{
    FILE *file = text_file_open(path, why, size);
    size_t length, room;

    if (!file)
        return false;
    room = room_for(file);
    *text = (char *)malloc(room + 1);
    length = *text ? fread(*text, 1, room, file) : 0;
    if (!*text)
        snprintf(why, size, "%s: out of memory", path);
    else if (ferror(file))
        snprintf(why, size, "%s: cannot be read: %s", path, strerror(errno));
    else if (length > MOST)
        snprintf(why, size, "%s: too long for a text of homes", path);
    else if (memchr(*text, 0, length))
        snprintf(why, size, "%s: a zero byte, no text", path);
    else {
        (*text)[length] = '\0';
        fclose(file);
        return true;
    }
    free(*text);
    fclose(file);
    return false;
}
