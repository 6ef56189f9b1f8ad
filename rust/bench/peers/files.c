/* Copies and removes the files of a store. */
#define _GNU_SOURCE /* SEEK_DATA, SEEK_HOLE */
#include "files.h"

#include <dirent.h>
#include <errno.h>
#include <fcntl.h>
#include <stdint.h>
#include <stdio.h>
#include <string.h>
#include <sys/stat.h>
#include <unistd.h>

#include "workload.h"

enum { PATH_SIZE = 4096, CHUNK = 1 << 16 };

static void name_in(char *path, const char *folder, const char *name)
{
    if (snprintf(path, PATH_SIZE, "%s/%s", folder, name) >= PATH_SIZE)
        fail("%s: the path is too long", folder);
}

/* Copies the bytes from one place of a file to another. */
static void copy_part(int from, int to, off_t at, off_t end)
{
    static uint8_t bytes[CHUNK];

    while (at < end) {
        size_t wanted = end - at < CHUNK ? (size_t)(end - at) : CHUNK;
        ssize_t got = pread(from, bytes, wanted, at);

        if (got <= 0 || pwrite(to, bytes, (size_t)got, at) != got)
            fail("a file cannot be copied: %s", strerror(errno));
        at += got;
    }
}

static void copy_file(const char *old_path, const char *new_path)
{
    int from = open(old_path, O_RDONLY), to = open(new_path, O_WRONLY | O_CREAT | O_EXCL, 0600);
    off_t size, start, end = 0;

    if (from < 0 || to < 0)
        fail("%s: cannot be copied: %s", old_path, strerror(errno));
    size = lseek(from, 0, SEEK_END);
    if (size < 0 || ftruncate(to, size) != 0)
        fail("%s: %s", new_path, strerror(errno));
    while (end < size && (start = lseek(from, end, SEEK_DATA)) >= 0) {
        end = lseek(from, start, SEEK_HOLE);
        copy_part(from, to, start, end);
    }
    close(from);
    close(to);
}

/* Calls action with the path of each file. */
static void each_file(const char *folder, const char *other, void (*action)(const char *path, const char *other))
{
    char path[PATH_SIZE], other_path[PATH_SIZE];
    DIR *listed = opendir(folder);
    struct dirent *entry;

    if (!listed)
        fail("%s: %s", folder, strerror(errno));
    while ((entry = readdir(listed)) != NULL) {
        if (entry->d_name[0] == '.')
            continue;
        name_in(path, folder, entry->d_name);
        name_in(other_path, other, entry->d_name);
        action(path, other_path);
    }
    closedir(listed);
}

void copy_folder(const char *from, const char *to)
{
    if (mkdir(to, 0700) != 0)
        fail("%s: %s", to, strerror(errno));
    each_file(from, to, copy_file);
}

static void remove_file(const char *path, const char *other)
{
    (void)other;
    if (unlink(path) != 0)
        fail("%s: %s", path, strerror(errno));
}

void remove_folder(const char *folder)
{
    each_file(folder, "", remove_file);
    if (rmdir(folder) != 0)
        fail("%s: %s", folder, strerror(errno));
}
