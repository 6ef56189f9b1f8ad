#define _XOPEN_SOURCE 700

#include "page_file.h"

#include <errno.h>
#include <fcntl.h>
#include <stdlib.h>
#include <string.h>
#include <sys/stat.h>
#include <unistd.h>

#include "nameless.h"

static bool fail(struct page_file *page, const char *why)
{
    page->why = why;
    free(page->path);
    free(page->temporary);
    page->path = page->temporary = NULL;
    return false;
}

/* Whether the file begins with the mark; a byte-order mark before it is passed over. */
static bool is_marked(FILE *file, const char *mark)
{
    char begin[64] = {0};
    size_t length = strlen(mark), count = fread(begin, 1, sizeof begin, file), skip = 0;

    if (count >= 3 && memcmp(begin, "\xEF\xBB\xBF", 3) == 0)
        skip = 3;
    return count - skip >= length && memcmp(begin + skip, mark, length) == 0;
}

/* Null if a file there may be replaced, or there is none; mode is the old one's. */
static const char *refusal(const char *path, const char *mark, mode_t *mode)
{
    struct stat status;
    FILE *file;
    bool ours;

    if (stat(path, &status) != 0)
        return errno == ENOENT ? NULL : strerror(errno);
    if (S_ISDIR(status.st_mode))
        return "it is a folder";
    if (!S_ISREG(status.st_mode))
        return "not a regular file";
    *mode = status.st_mode & 0777;
    if (access(path, W_OK) != 0)
        return strerror(errno);
    if (status.st_size == 0)
        return NULL;
    file = fopen(path, "rb");
    if (!file)
        return strerror(errno);
    ours = is_marked(file, mark);
    fclose(file);
    return ours ? NULL : "it is there already and holds something else";
}

/* A name beside the one that the file gets, so that it can be renamed: the attempt-th. */
static char *beside(struct page_file *page, unsigned attempt)
{
    size_t room = strlen(page->path) + 40;

    if (!page->temporary)
        page->temporary = (char *)malloc(room);
    if (page->temporary)
        snprintf(page->temporary, room, "%s.%ld-%u.tmp", page->path, (long)getpid(), attempt);
    return page->temporary;
}

/* A new file, without a name until it is whole where there is such. */
static int create_beside(struct page_file *page)
{
    unsigned attempt;
    int number = nameless_open(page->path);

    page->nameless = number >= 0;
    for (attempt = 0; attempt < 100 && number < 0 && beside(page, attempt); attempt++) {
        number = open(page->temporary, O_WRONLY | O_CREAT | O_EXCL | O_CLOEXEC, 0666);
        if (number < 0 && errno != EEXIST)
            break;
    }
    return number;
}

/* Names a file that has none; true if it has one now. */
static bool name_it(struct page_file *page)
{
    unsigned attempt;
    int error = page->nameless ? EEXIST : 0;

    for (attempt = 0; attempt < 100 && error == EEXIST; attempt++)
        error = beside(page, attempt) ? nameless_link(fileno(page->file), page->temporary) : ENOMEM;
    errno = error;
    return error == 0;
}

bool page_create(struct page_file *page, const char *path, const char *mark)
{
    mode_t mode = 0;
    const char *why = refusal(path, mark, &mode);
    int number;

    memset(page, 0, sizeof *page);
    if (why)
        return fail(page, why);
    page->path = mode ? realpath(path, NULL) : strdup(path); /* a link goes on leading to the page */
    if (!page->path)
        return fail(page, strerror(errno));
    number = create_beside(page);
    if (number < 0)
        return fail(page, strerror(errno));
    page->file = (mode && fchmod(number, mode) != 0) ? NULL : fdopen(number, "wb");
    if (!page->file) {
        why = strerror(errno);
        close(number);
        if (page->temporary)
            unlink(page->temporary);
        return fail(page, why);
    }
    return true;
}

bool page_finish(struct page_file *page)
{
    bool done = !ferror(page->file) && fflush(page->file) == 0 && fsync(fileno(page->file)) == 0 && name_it(page);
    int error = done ? 0 : errno;

    if (fclose(page->file) != 0 && done) {
        done = false;
        error = errno;
    }
    if (done && rename(page->temporary, page->path) != 0) {
        done = false;
        error = errno;
    }
    if (!done && page->temporary)
        unlink(page->temporary);
    fail(page, done ? NULL : strerror(error ? error : EIO));
    return done;
}
