/*
 * Image files, written and mapped: work stopped inside each kind of write,
 * locks, files that fail, that shrink and that are
 * full. Argument: a folder for scratch files.
 */
/* Clauses: [S-57, S-77, S-83] */
#define _DEFAULT_SOURCE 1
#define _POSIX_C_SOURCE 200809L

#include <errno.h>
#include <fcntl.h>
#include <signal.h>
#include <stdio.h>
#include <stdlib.h>
#include <string.h>
#include <sys/resource.h>
#include <sys/wait.h>
#include <unistd.h>

#include "../common/play.h"
#include "kagutin_file.h"

enum { GROUPS = 5, HOMES = 8, STEPS = 150 };

static uint8_t memory[KGT_MEMORY_SIZE(GROUPS, HOMES)];
static char path[4096];
static struct kgt_file file;
static struct kagutin store;
static struct play play;
static bool mapped;

static void check(bool right, const char *what, unsigned long at)
{
    if (right)
        return;
    printf("file_check: wrong: %s, %s, at %lu: %s%s\n", what, mapped ? "mapped" : "written", at, file.message,
           play.wrong ? play.wrong : "");
    exit(1);
}

static void create(void)
{
    unlink(path);
    check(kgt_file_create(&file, path, GROUPS, HOMES), "create", 0);
    check(!mapped || kgt_file_map(&file), "map", 0);
    check(kgt_init(&store, memory, sizeof memory, GROUPS, HOMES, kgt_file_driver(&file)).code == 0, "init", 0);
}

static void open_again(unsigned long at)
{
    kgt_file_close(&file);
    check(kgt_file_open(&file, path) && (!mapped || kgt_file_map(&file)), "open the file again", at);
    check(kgt_init(&store, memory, sizeof memory, GROUPS, HOMES, kgt_file_driver(&file)).code == 0, "init", at);
    check(kgt_open(&store).code == KAGUTIN_DONE, "open", at);
}

/* ---- stopped inside a write ---- */

static struct kgt_driver inner;
static unsigned long writes, stop_write, stop_bytes;
/* Which write it is: a group, or its body without the first word; that word; a home; a header; a blank group. */
enum { GROUP, FIRST_WORD, HOME, HEADER, BLANK, KINDS };
static unsigned long found[KINDS];

static int kind(enum kgt_area area, size_t at, const uint8_t *bytes, size_t size)
{
    if (area == KGT_HOMES)
        return HOME;
    if (size == KAGUTIN_GROUP_SIZE && !bytes[0])
        return BLANK;
    return at == 0 ? HEADER : size == 8 ? FIRST_WORD : GROUP;
}

/* From the chosen write on nothing arrives, and of that one only so many bytes. */
static int stopping_write(void *context, enum kgt_area area, size_t at, const uint8_t *bytes, size_t size)
{
    writes++;
    found[kind(area, at, bytes, size)] = writes;
    if (writes < stop_write)
        return inner.write(context, area, at, bytes, size);
    if (writes == stop_write && stop_bytes)
        inner.write(context, area, at, bytes, stop_bytes);
    return 99;
}

static int stopping_fence(void *context)
{
    return writes >= stop_write ? 99 : inner.fence(context);
}

/* Works until the chosen write; true if it came to the end. */
static bool work_until(unsigned long write, unsigned long bytes)
{
    bool ended;

    create();
    inner = store.runner.driver;
    store.runner.driver.write = stopping_write;
    store.runner.driver.fence = stopping_fence;
    play_start(&play, &store, HOMES, 3);
    writes = 0;
    stop_write = write;
    stop_bytes = bytes;
    ended = kgt_open(&store).code == KAGUTIN_DONE && play_work(&play, STEPS);
    check(!play.wrong, "work", bytes);
    return ended;
}

static void check_stops(void)
{
    size_t group = mapped ? KAGUTIN_GROUP_SIZE - 8 : KAGUTIN_GROUP_SIZE, block = mapped ? 1 : KAGUTIN_BLOCK_SIZE;
    const size_t sizes[KINDS] = {group, 8, KAGUTIN_BLOCK_SIZE, KAGUTIN_HEADER_SIZE, KAGUTIN_GROUP_SIZE};
    const size_t steps[KINDS] = {block, 1, 1, 8, 1}; /* a header only by whole words, a written group by blocks */
    unsigned long chosen[KINDS], bytes;
    int i;

    memset(found, 0, sizeof found);
    check(work_until(1000000, 0), "work without a stop", 0);
    memcpy(chosen, found, sizeof chosen);
    check((chosen[FIRST_WORD] != 0) == mapped, "a first word follows its group only where words land", 0);
    for (i = 0; i < KINDS; i++)
        for (bytes = 0; chosen[i] && bytes <= sizes[i]; bytes += steps[i]) {
            check(!work_until(chosen[i], bytes), "work stopped inside a write", bytes);
            open_again(bytes);
            check(play_opened(&play) && play_work(&play, 30), "an opening after a stop", bytes);
            kgt_file_close(&file);
        }
}

/* ---- locks and names ---- */

/* The status with which a child process ends. */
static int in_child(int (*run)(void))
{
    pid_t child;
    int status = -1;

    fflush(stdout);
    child = fork();
    if (child == 0)
        _exit(run());
    if (child < 0 || waitpid(child, &status, 0) != child || !WIFEXITED(status))
        return -1;
    return WEXITSTATUS(status);
}

static int open_elsewhere(void)
{
    struct kgt_file other;

    if (kgt_file_open(&other, path))
        return 0;
    return strstr(other.message, "in use") ? 1 : 2;
}

static void check_lock(void)
{
    struct kgt_file second;

    create();
    check(in_child(open_elsewhere) == 1, "a second process is refused", 0);
    check(!kgt_file_open(&second, path) && strstr(second.message, "in use"), "a second opening is refused", 0);
    kgt_file_close(&second);
    check(in_child(open_elsewhere) == 1, "and leaves the lock as it was", 0);
    check(!kgt_file_create(&second, path, GROUPS, HOMES) && strstr(second.message, "exists"), "a name in use", 0);
    kgt_file_close(&file);
    check(in_child(open_elsewhere) == 0, "a closed file is free", 0);
}

/* ---- files that fail ---- */

/* After one failure the file is of no more use, though the disk is in order again. */
static void check_gone(const char *what)
{
    struct kgt_mark reply = kgt_sync(&store);
    uint8_t block[KAGUTIN_BLOCK_SIZE] = {0};

    check(reply.code == KGT_DRIVER_FAILED && reply.error != 0 && reply.mark == 0, what, (unsigned long)reply.code);
    check(kgt_open(&store).code == KGT_DRIVER_FAILED, "it stays failed", 0);
    check(kgt_read(&store, 0, 1, block).code == KGT_DRIVER_FAILED, "every call is refused", 0);
    check(file.message[0] != '\0', "a message is left", 0);
    open_again(0);
    check(play_opened(&play), "an opening after a failure", 0);
    check(play_work(&play, 50), "work after it", 0);
}

static void begin_work(void)
{
    create();
    play_start(&play, &store, HOMES, 5);
    check(kgt_open(&store).code == KAGUTIN_DONE && play_work(&play, STEPS), "work", 0);
}

/* The descriptor leads elsewhere for one sync: to a full device, or to nothing. */
static void check_bad_descriptor(const char *other)
{
    int kept, wrong;

    begin_work();
    kept = dup(file.descriptor);
    wrong = open(other, O_RDWR);
    check(kept >= 0 && wrong >= 0 && dup2(wrong, file.descriptor) >= 0, "another descriptor", 0);
    play_work(&play, 100);
    check(kgt_sync(&store).code == KGT_DRIVER_FAILED, "a sync that fails", 0);
    check(dup2(kept, file.descriptor) >= 0, "the descriptor back", 0);
    close(kept);
    close(wrong);
    check_gone("a failure is for good");
}

static void check_size_limit(void)
{
    struct rlimit old, low = {64, 64};

    begin_work();
    check(getrlimit(RLIMIT_FSIZE, &old) == 0, "limits", 0);
    low.rlim_max = old.rlim_max;
    check(setrlimit(RLIMIT_FSIZE, &low) == 0, "a limit like a full disk", 0);
    play_work(&play, 100);
    check(mapped || kgt_sync(&store).code == KGT_DRIVER_FAILED, "a write that fails", 0);
    check(setrlimit(RLIMIT_FSIZE, &old) == 0, "the limit back", 0);
    if (!mapped)
        check_gone("a full disk is for good");
    kgt_file_close(&file);
}

static void check_shrunk(void)
{
    begin_work();
    check(truncate(path, 100) == 0, "truncate", 0);
    play_work(&play, 100);
    check(kgt_sync(&store).code == KGT_DRIVER_FAILED, "a file that has shrunk fails", 0);
    check(strstr(file.message, "has become") != NULL, "and says so", 0);
    kgt_file_close(&file);
    check(!kgt_file_open(&file, path), "nor is it opened", 0);
}

int main(int count, char **words)
{
    int i;

    if (count != 2) {
        fputs("usage: file_check FOLDER\n", stderr);
        return 2;
    }
    snprintf(path, sizeof path, "%s/file_check.img", words[1]);
    signal(SIGXFSZ, SIG_IGN);
    for (i = 0; i < 2; i++) {
        mapped = i == 1;
        check_stops();
        if (!mapped)
            check_bad_descriptor("/dev/full");
        check_bad_descriptor("/dev/null");
        check_size_limit();
        check_shrunk();
    }
    check_lock();
    unlink(path);
    puts("file_check: right");
    return 0;
}
