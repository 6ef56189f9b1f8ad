#define _DEFAULT_SOURCE 1

#include "new_file.h"

#include <errno.h>
#include <stdio.h>
#include <stdlib.h>
#include <string.h>
#include <sys/stat.h>
#include <unistd.h>

#include "nameless.h"

static int write_all(int file, const uint8_t *bytes, size_t size)
{
    size_t done = 0;

    while (done < size) {
        ssize_t count = write(file, bytes + done, size - done);

        if (count < 0 && errno == EINTR)
            continue;
        if (count <= 0)
            return count ? errno : EIO;
        done += (size_t)count;
    }
    return fsync(file) == 0 ? 0 : errno;
}

/* A name that is free; file systems without links take a rename, with a moment between question and answer. */
static int give_name(const char *temporary, const char *path)
{
    struct stat status;

    if (link(temporary, path) == 0)
        return 0;
    if (errno != EPERM && errno != ENOTSUP && errno != ENOSYS)
        return errno;
    if (lstat(path, &status) == 0)
        return EEXIST;
    return rename(temporary, path) == 0 ? 0 : errno;
}

static int write_nameless(int file, const char *path, const uint8_t *bytes, size_t size)
{
    int error = write_all(file, bytes, size);

    if (!error)
        error = nameless_link(file, path);
    if (close(file) != 0 && !error)
        error = errno;
    return error;
}

static int write_as(char *temporary, const char *path, const uint8_t *bytes, size_t size)
{
    mode_t mask = umask(0);
    int file = mkstemp(temporary), error;

    umask(mask);
    if (file < 0)
        return errno;
    error = write_all(file, bytes, size);
    if (fchmod(file, 0666 & ~mask) != 0 && !error)
        error = errno;
    if (close(file) != 0 && !error)
        error = errno;
    if (!error)
        error = give_name(temporary, path);
    unlink(temporary);
    return error;
}

bool new_file_write(const char *path, const uint8_t *bytes, size_t size, char *message, size_t message_size)
{
    static const char ending[] = ".XXXXXX";
    struct stat status;
    char *temporary;
    int error = EEXIST, file;

    if (lstat(path, &status) != 0 && (file = nameless_open(path)) >= 0) {
        error = write_nameless(file, path, bytes, size);
    } else if (lstat(path, &status) != 0) {
        temporary = (char *)malloc(strlen(path) + sizeof ending);
        error = ENOMEM;
        if (temporary) {
            strcpy(temporary, path);
            strcat(temporary, ending);
            error = write_as(temporary, path, bytes, size);
        }
        free(temporary);
    }
    if (error == EEXIST)
        snprintf(message, message_size, "%s: exists already", path);
    else if (error)
        snprintf(message, message_size, "%s: cannot be created: %s", path, strerror(error));
    return error == 0;
}
