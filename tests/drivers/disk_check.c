/*
 * An image file on a disk that fails, while a second process has it mapped, so
 * that its pages stay in the cache. A sync that fails leaves any part of what
 * was written on the disk; the cache shows all of it and takes it for clean, as
 * Linux does. Then the file is opened again in the same process, and power goes
 * inside openings and elsewhere. The file is the cache here, and the disk an
 * array: pwrite, fdatasync and msync are this program's own. Arguments: a
 * folder for scratch files, reopenings.
 */
/* Clauses: [S-77] */
#define _DEFAULT_SOURCE 1
#define _POSIX_C_SOURCE 200809L

#include <errno.h>
#include <fcntl.h>
#include <stdio.h>
#include <stdlib.h>
#include <string.h>
#include <sys/mman.h>
#include <sys/wait.h>
#include <unistd.h>

#include "kagutin_file.h"
#include "../common/play.h"

enum { GROUPS = 9, HOMES = 40, STEPS = 300, WORD = 8, SIZE = 64 + 512 * GROUPS + 64 * HOMES };
enum event { FAILS, POWER_GOES };

static uint8_t memory[KGT_MEMORY_SIZE(GROUPS, HOMES)];
static char path[4096];
static struct kgt_file file;
static struct kagutin store;
static struct play play;
static bool mapped;

static struct {
    uint8_t *cache;            /* the file, mapped; null: no disk yet */
    uint8_t bytes[SIZE];       /* what a power cut leaves */
    uint8_t clean[SIZE];       /* the cache when it was last taken for clean */
    bool touched[SIZE / WORD]; /* written since by pwrite, be it with the same bytes */
    size_t unit;               /* bytes that arrive whole */
    unsigned long calls_left;  /* until the event */
    enum event event;
    bool off; /* power is gone */
} disk;

static void check(bool right, const char *what, unsigned long at)
{
    if (right)
        return;
    printf("disk_check: wrong: %s, %s, at %lu: %s %s\n", what, mapped ? "mapped" : "written", at, file.message,
           play.wrong ? play.wrong : "");
    exit(1);
}

/* ---- the disk ---- */

/* Blocks that are not clean arrive, all or by chance; all are clean then. */
static void write_out(bool by_chance)
{
    size_t at, i;

    for (at = 0; at < SIZE; at += disk.unit) {
        bool dirty = memcmp(disk.cache + at, disk.clean + at, disk.unit) != 0;

        for (i = at / WORD; i < (at + disk.unit) / WORD; i++) {
            dirty = dirty || disk.touched[i];
            disk.touched[i] = false;
        }
        if (dirty && !(by_chance && play_random(&play, 2)))
            memcpy(disk.bytes + at, disk.cache + at, disk.unit);
    }
    memcpy(disk.clean, disk.cache, SIZE);
}

static void cut_power(void)
{
    write_out(true);
    memcpy(disk.cache, disk.bytes, SIZE);
    memcpy(disk.clean, disk.bytes, SIZE);
    disk.off = false;
}

/* Is this the call at which it happens, or is power gone already? */
static bool fails(void)
{
    if (!disk.off && (disk.calls_left == 0 || --disk.calls_left > 0))
        return false;
    disk.off = disk.off || disk.event == POWER_GOES;
    errno = EIO;
    return true;
}

ssize_t pwrite(int descriptor, const void *bytes, size_t size, off_t at)
{
    size_t from = (size_t)at, i;

    if (disk.cache) {
        if (fails())
            return -1;
        for (i = from / WORD; i < (from + size) / WORD; i++)
            disk.touched[i] = true;
    }
    return lseek(descriptor, at, SEEK_SET) == at ? write(descriptor, bytes, size) : -1;
}

static int sync_disk(void)
{
    bool failed = fails();

    if (!disk.off)
        write_out(failed);
    errno = EIO;
    return failed ? -1 : 0;
}

int fdatasync(int descriptor)
{
    return disk.cache ? sync_disk() : fsync(descriptor);
}

int msync(void *address, size_t size, int flags)
{
    (void)address;
    check(size == SIZE && flags == MS_SYNC, "a sync of the whole mapping", size);
    return sync_disk();
}

/* ---- the second process ---- */

static int keep_open; /* while this end of the pipe is open the process has the image mapped */
static pid_t other;

static void map_elsewhere(void)
{
    int ends[2], ready[2], descriptor;
    char byte = 0;

    check(pipe(ends) == 0 && pipe(ready) == 0, "pipes", 0);
    fflush(stdout);
    other = fork();
    if (other == 0) {
        const uint8_t *map;
        size_t at;

        close(ends[1]);
        descriptor = open(path, O_RDONLY);
        map = (const uint8_t *)mmap(NULL, SIZE, PROT_READ, MAP_SHARED, descriptor, 0);
        if (map == MAP_FAILED)
            _exit(1);
        for (at = 0; at < SIZE; at++)
            byte = (char)(byte ^ map[at]);
        _exit(write(ready[1], &byte, 1) != 1 || read(ends[0], &byte, 1) != 0);
    }
    close(ends[0]);
    close(ready[1]);
    check(other > 0 && read(ready[0], &byte, 1) == 1, "a second process that maps the image", 0);
    close(ready[0]);
    keep_open = ends[1];
}

static void unmap_elsewhere(void)
{
    int status;

    close(keep_open);
    check(waitpid(other, &status, 0) == other && WIFEXITED(status) && WEXITSTATUS(status) == 0, "its end", 0);
}

/* ---- the store on it ---- */

static void begin(void)
{
    int descriptor;

    memset(&disk, 0, sizeof disk);
    unlink(path);
    check(kgt_file_create(&file, path, GROUPS, HOMES), "create", 0);
    kgt_file_close(&file);
    descriptor = open(path, O_RDWR);
    disk.cache = (uint8_t *)mmap(NULL, SIZE, PROT_READ | PROT_WRITE, MAP_SHARED, descriptor, 0);
    check(disk.cache != MAP_FAILED, "map", 0);
    close(descriptor);
    disk.unit = mapped ? WORD : KAGUTIN_BLOCK_SIZE;
    memcpy(disk.bytes, disk.cache, SIZE);
    memcpy(disk.clean, disk.cache, SIZE);
    play_start(&play, &store, HOMES, 7);
    map_elsewhere();
}

static bool open_again(unsigned long round)
{
    kgt_file_close(&file);
    if (!kgt_file_open(&file, path) || (mapped && !kgt_file_map(&file)))
        return false;
    check(memcmp(disk.bytes, disk.cache, SIZE) == 0, "an opened image that is not what the disk has", round);
    check(kgt_init(&store, memory, sizeof memory, GROUPS, HOMES, kgt_file_driver(&file)).code == KAGUTIN_DONE, "init", round);
    return kgt_open(&store).code == KAGUTIN_DONE;
}

/* At one of the next calls, every other time one of the first, the disk fails or power goes. */
static void check_reopenings(unsigned long rounds)
{
    unsigned long round, done = 0, failures = 0;

    for (round = 0; round < rounds; round++) {
        disk.calls_left = 1 + play_random(&play, round % 2 ? 20 : 120);
        disk.event = play_random(&play, 3) ? FAILS : POWER_GOES;
        if (open_again(round)) {
            done++;
            check(play_opened(&play), "an opening", round);
            play_work(&play, STEPS);
            check(!play.wrong, "work", round);
        } else
            check(disk.calls_left == 0, "an opening that is not done though the disk is in order", round);
        failures += disk.calls_left == 0 && !disk.off;
        if (disk.off || play_random(&play, 4) == 0)
            cut_power();
    }
    disk.calls_left = 0;
    check(open_again(round) && play_opened(&play), "the last opening", round);
    printf("disk_check: %s: opened %lu times, %lu done, %lu failures without a cut, %llu commits\n",
           mapped ? "mapped" : "written", rounds, done, failures, (unsigned long long)play.committed);
}

int main(int count, char **words)
{
    int i;

    if (count != 3) {
        fputs("usage: disk_check FOLDER REOPENINGS\n", stderr);
        return 2;
    }
    snprintf(path, sizeof path, "%s/disk_check.img", words[1]);
    for (i = 0; i < 2; i++) {
        mapped = i == 1;
        begin();
        check_reopenings(strtoul(words[2], NULL, 10));
        kgt_file_close(&file);
        munmap(disk.cache, SIZE);
        unmap_elsewhere();
    }
    unlink(path);
    puts("disk_check: right");
    return 0;
}
