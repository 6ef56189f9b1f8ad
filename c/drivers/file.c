/* Image files: making, opening, closing. */
#define _DEFAULT_SOURCE 1
#define _POSIX_C_SOURCE 200809L

#include "kagutin_file_inner.h"

#include <errno.h>
#include <fcntl.h>
#include <stdio.h>
#include <stdlib.h>
#include <string.h>
#include <sys/file.h>
#include <sys/mman.h>
#include <sys/stat.h>
#ifdef __linux__
#include <sys/syscall.h>
#endif
#include <unistd.h>

/* How a file without a name is opened, where the system has such. */
#if defined(O_TMPFILE)
#define NAMELESS O_TMPFILE
#elif defined(__O_TMPFILE)
#define NAMELESS __O_TMPFILE
#endif

static void clear(struct kgt_file *file)
{
    memset(file, 0, sizeof *file);
    file->descriptor = -1;
}

void kgt_file_close(struct kgt_file *file)
{
    if (file->map)
        munmap(file->map, file->size);
    if (file->descriptor >= 0)
        close(file->descriptor);
    file->map = NULL;
    file->descriptor = -1;
}

static bool set_shape(struct kgt_file *file, size_t groups, size_t homes)
{
    file->groups = groups;
    file->homes = homes;
    file->log_size = KGT_LOG_SIZE(groups);
    file->size = file->log_size + KGT_HOMES_SIZE(homes);
    if (groups < KAGUTIN_MIN_GROUPS || groups > KAGUTIN_MAX_GROUPS || homes < KAGUTIN_MIN_HOMES || homes > KAGUTIN_MAX_HOMES)
        return kgt_file_say(file, "%lu groups and %lu homes: groups go from 4 to 1024, homes from 1 to 65535",
                            (unsigned long)groups, (unsigned long)homes);
    return true;
}

static bool take_lock(struct kgt_file *file, const char *path)
{
    if (flock(file->descriptor, LOCK_EX | LOCK_NB) == 0)
        return true;
    if (errno == EWOULDBLOCK)
        return kgt_file_say(file, "%s: in use", path);
    return kgt_file_say(file, "%s: cannot be locked: %s", path, strerror(errno));
}

/* ---- making one ---- */

/* Runs the batch of a format; nothing counts before the file has its name. */
static bool format(struct kgt_file *file)
{
    size_t batch_size = KGT_FORMAT_SIZE(file->groups, file->homes);
    uint8_t *memory = (uint8_t *)calloc(1, file->size + batch_size);
    uint8_t *area, *batch;
    struct kgt_driver driver = kgt_file_driver(file);
    struct kgt_runner runner;
    struct kagutin_reply reply;
    bool done;

    if (!memory)
        return kgt_file_say(file, "out of memory");
    area = memory + file->log_size;
    batch = memory + file->size;
    kgt_runner_init(&runner, driver, NULL, NULL, file->groups, file->homes);
    reply = kagutin_format(memory, file->log_size, area, file->size - file->log_size, batch, batch_size);
    done = reply.code == KAGUTIN_DONE && kgt_run(&runner, batch, (size_t)reply.size) == 0;
    if (reply.code != KAGUTIN_DONE)
        kgt_file_say(file, "format: %s", kagutin_answer_text(reply.code));
    free(memory);
    return done;
}

static bool fill(struct kgt_file *file, const char *path)
{
    int error = posix_fallocate(file->descriptor, 0, (off_t)file->size);

    if (error)
        return kgt_file_say(file, "%s: no room for %lu bytes: %s", path, (unsigned long)file->size, strerror(error));
    if (!format(file))
        return false;
    if (fsync(file->descriptor) != 0)
        return kgt_file_say(file, "%s: cannot be synced: %s", path, strerror(errno));
    return true;
}

/* For file systems without links, as on memory cards: a rename that replaces nothing. */
static bool rename_new(const char *temporary, const char *path)
{
#ifdef SYS_renameat2
    return syscall(SYS_renameat2, AT_FDCWD, temporary, AT_FDCWD, path, 1u /* RENAME_NOREPLACE */) == 0;
#else
    (void)temporary;
    (void)path;
    return false;
#endif
}

/* Gives the finished file its name; never replaces another. */
static bool give_name(struct kgt_file *file, const char *temporary, const char *path)
{
    if (link(temporary, path) == 0)
        return true;
    if ((errno == EPERM || errno == ENOTSUP || errno == ENOSYS) && rename_new(temporary, path))
        return true;
    if (errno == EEXIST)
        return kgt_file_say(file, "%s: exists already", path);
    return kgt_file_say(file, "%s: cannot be created: %s", path, strerror(errno));
}

/* Cuts a path to its folder. */
static const char *cut_to_folder(char *path)
{
    char *slash = strrchr(path, '/');

    if (slash)
        slash[slash == path] = '\0';
    return slash ? path : ".";
}

/* Makes the new name in its folder durable. The path is cut to the folder's. */
static bool sync_folder(struct kgt_file *file, char *path)
{
    const char *name = cut_to_folder(path);
    int folder = open(name, O_RDONLY | O_DIRECTORY | O_CLOEXEC);
    bool done;

    if (folder < 0)
        return kgt_file_say(file, "%s: cannot be opened: %s", name, strerror(errno));
    done = fsync(folder) == 0 || errno == EINVAL; /* EINVAL: the file system has no such sync */
    if (!done)
        kgt_file_say(file, "%s: cannot be synced: %s", name, strerror(errno));
    close(folder);
    return done;
}

/* A file that has no name until it is whole, so that a killed program leaves none; -1 if system or file system has no such. */
static int open_nameless(char *path)
{
#ifdef NAMELESS
    char *slash = strrchr(path, '/'), after = slash ? slash[slash == path] : '\0';
    const char *folder = cut_to_folder(path);
    int descriptor = access("/proc/self/fd", X_OK) == 0 ? open(folder, NAMELESS | O_RDWR | O_CLOEXEC, 0600) : -1;

    if (slash)
        slash[slash == path] = after;
    return descriptor;
#else
    (void)path;
    return -1;
#endif
}

static bool name_nameless(struct kgt_file *file, const char *path)
{
    char own[40];

    snprintf(own, sizeof own, "/proc/self/fd/%d", file->descriptor);
    if (linkat(AT_FDCWD, own, AT_FDCWD, path, AT_SYMLINK_FOLLOW) == 0)
        return true;
    if (errno == EEXIST)
        return kgt_file_say(file, "%s: exists already", path);
    return kgt_file_say(file, "%s: cannot be created: %s", path, strerror(errno));
}

static bool create_as(struct kgt_file *file, char *temporary, const char *path)
{
    bool named, done;

    file->descriptor = open_nameless(temporary);
    named = file->descriptor < 0;
    if (named)
        file->descriptor = mkstemp(temporary);
    if (file->descriptor < 0)
        return kgt_file_say(file, "%s: cannot be created: %s", path, strerror(errno));
    fcntl(file->descriptor, F_SETFD, FD_CLOEXEC);
    done = take_lock(file, path) && fill(file, path) && (named ? give_name(file, temporary, path) : name_nameless(file, path));
    if (named)
        unlink(temporary);
    return done && sync_folder(file, temporary);
}

bool kgt_file_create(struct kgt_file *file, const char *path, size_t groups, size_t homes)
{
    static const char ending[] = ".XXXXXX";
    size_t length = strlen(path);
    struct stat status;
    char *temporary;
    bool done;

    clear(file);
    if (!set_shape(file, groups, homes))
        return false;
    if (lstat(path, &status) == 0)
        return kgt_file_say(file, "%s: exists already", path);
    temporary = (char *)malloc(length + sizeof ending);
    if (!temporary)
        return kgt_file_say(file, "out of memory");
    memcpy(temporary, path, length);
    memcpy(temporary + length, ending, sizeof ending);
    done = create_as(file, temporary, path);
    free(temporary);
    if (!done)
        kgt_file_close(file);
    return done;
}

/* ---- opening one ---- */

static size_t number16(const uint8_t *bytes)
{
    return (size_t)bytes[0] | (size_t)bytes[1] << 8;
}

/* Reads the header and holds the size against it. */
static bool check_image(struct kgt_file *file, const char *path, off_t size)
{
    uint8_t header[KAGUTIN_HEADER_SIZE];
    ssize_t got = pread(file->descriptor, header, sizeof header, 0);
    size_t i;

    if (got < 0)
        return kgt_file_say(file, "%s: cannot be read: %s", path, strerror(errno));
    if (got < (ssize_t)sizeof header)
        return kgt_file_say(file, "%s: short file: %lld bytes, not even a header of 64", path, (long long)size);
    if (header[0] == 0x50 && header[1] == 0x48)
        return kgt_file_say(file, "%s: an image of an older format: the header's mark is 50 48, not 50 54", path);
    if (header[0] != 0x50 || header[1] != 0x54)
        return kgt_file_say(file, "%s: no image: the header's mark is %02X %02X, not 50 54", path, header[0], header[1]);
    for (i = 12; i < sizeof header; i++)
        if (header[i])
            return kgt_file_say(file, "%s: damaged header: byte %lu is not zero", path, (unsigned long)i);
    if (header[7] >> 7 && (header[7] > 0x80 || header[2] | header[3] | header[4] | header[5] | header[6]))
        return kgt_file_say(file, "%s: damaged header: its start is above 2^47", path);
    if (!set_shape(file, number16(header + 8), number16(header + 10)))
        return kgt_file_say(file, "%s: damaged header: %lu groups, %lu homes", path, (unsigned long)file->groups,
                            (unsigned long)file->homes);
    if (size != (off_t)file->size)
        return kgt_file_say(file, "%s: %s file: %lld bytes; %lu groups and %lu homes take %lu", path,
                            size < (off_t)file->size ? "short" : "overlong", (long long)size, (unsigned long)file->groups,
                            (unsigned long)file->homes, (unsigned long)file->size);
    return true;
}

/* Locks the file first; once it is known for an image, what the cache holds of it is brought to the disk. */
static bool open_image(struct kgt_file *file, const char *path)
{
    struct stat status;

    if (fstat(file->descriptor, &status) != 0)
        return kgt_file_say(file, "%s: cannot be looked at: %s", path, strerror(errno));
    if (!S_ISREG(status.st_mode))
        return kgt_file_say(file, "%s: not a regular file", path);
    if (!(status.st_mode & (S_IWUSR | S_IWGRP | S_IWOTH)))
        return kgt_file_say(file, "%s: is read-only", path);
    if (!take_lock(file, path))
        return false;
    if (fstat(file->descriptor, &status) != 0)
        return kgt_file_say(file, "%s: cannot be looked at: %s", path, strerror(errno));
    return check_image(file, path, status.st_size) && kgt_file_write_back(file) == 0;
}

bool kgt_file_open(struct kgt_file *file, const char *path)
{
    clear(file);
    file->descriptor = open(path, O_RDWR | O_NONBLOCK | O_CLOEXEC);
    if (file->descriptor < 0)
        return kgt_file_say(file, "%s: cannot be opened for writing: %s", path, strerror(errno));
    if (open_image(file, path))
        return true;
    kgt_file_close(file);
    return false;
}

bool kgt_file_open_or_create(struct kgt_file *file, const char *path, size_t groups, size_t homes)
{
    struct stat status;

    if (stat(path, &status) != 0 && kgt_file_create(file, path, groups, homes))
        return true;
    if (stat(path, &status) != 0) /* there is none, and the message says why none could be made */
        return false;
    if (!kgt_file_open(file, path))
        return false;
    if (file->groups == groups && file->homes == homes)
        return true;
    kgt_file_say(file, "%s: an image of another shape: %lu groups and %lu homes, not %lu and %lu", path,
                 (unsigned long)file->groups, (unsigned long)file->homes, (unsigned long)groups, (unsigned long)homes);
    kgt_file_close(file);
    return false;
}
