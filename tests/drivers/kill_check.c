/*
 * A process works on an image and is killed at a random instant; then the
 * image is opened and held against the book. Arguments: image, kills, seed.
 * The image is written in one half of the rounds and mapped in the other.
 */
/* Clauses: [S-54, S-55] */
#define _DEFAULT_SOURCE 1
#define _POSIX_C_SOURCE 200809L

#include <signal.h>
#include <stdio.h>
#include <stdlib.h>
#include <sys/mman.h>
#include <sys/wait.h>
#include <time.h>
#include <unistd.h>

#include "../common/play.h"
#include "kagutin_file.h"

enum { GROUPS = 6, HOMES = 16 };

static uint8_t memory[KGT_MEMORY_SIZE(GROUPS, HOMES)];
static struct kgt_file file;
static struct kagutin store;
/* Shared with the process that is killed. */
static struct shared {
    volatile bool ready; /* its opening is done */
    struct play play;
} * shared;
static struct play *play;

static void check(bool right, const char *what, unsigned long at)
{
    if (right)
        return;
    printf("kill_check: wrong: %s, after %lu kills: %s%s\n", what, at, file.message, play->wrong ? play->wrong : "");
    exit(1);
}

static bool open_store(const char *path, bool mapped)
{
    return kgt_file_open(&file, path) && (!mapped || kgt_file_map(&file))
        && kgt_init(&store, memory, sizeof memory, GROUPS, HOMES, kgt_file_driver(&file)).code == KAGUTIN_DONE
        && kgt_open(&store).code == KAGUTIN_DONE;
}

static void work_until_killed(const char *path, bool mapped, uint64_t seed)
{
    if (!open_store(path, mapped))
        _exit(1);
    play->random = seed;
    shared->ready = true;
    if (!play_work(play, 1000000))
        _exit(1);
    for (;;)
        pause();
}

static void wait_some(uint64_t microseconds)
{
    struct timespec time;

    time.tv_sec = 0;
    time.tv_nsec = (long)microseconds * 1000;
    nanosleep(&time, NULL);
}

/* In one half of the rounds power also fails while the process opens the image. */
static void wait_for_kill(struct play *chance)
{
    unsigned tries = play_random(chance, 2) ? 20000 : 0;

    while (tries-- > 0 && !shared->ready)
        wait_some(100);
    wait_some(play_random(chance, play_random(chance, 2) ? 1000 : 16000));
}

int main(int count, char **words)
{
    unsigned long kills, kill_count;
    struct play chance;
    int status;

    if (count != 4) {
        fputs("usage: kill_check IMAGE KILLS SEED\n", stderr);
        return 2;
    }
    kills = strtoul(words[2], NULL, 10);
    shared = (struct shared *)mmap(NULL, sizeof *shared, PROT_READ | PROT_WRITE, MAP_SHARED | MAP_ANONYMOUS, -1, 0);
    if (shared == MAP_FAILED || !kgt_file_create(&file, words[1], GROUPS, HOMES)) {
        fprintf(stderr, "kill_check: %s\n", file.message);
        return 3;
    }
    kgt_file_close(&file);
    play = &shared->play;
    play_start(play, &store, HOMES, 0);
    play_start(&chance, NULL, 1, strtoull(words[3], NULL, 10));
    for (kill_count = 0; kill_count < kills; kill_count++) {
        bool mapped = kill_count % 2 != 0;
        pid_t child;

        shared->ready = false;
        child = fork();
        if (child == 0)
            work_until_killed(words[1], mapped, play_random(&chance, UINT64_MAX) + kill_count);
        wait_for_kill(&chance);
        check(child > 0 && kill(child, SIGKILL) == 0 && waitpid(child, &status, 0) == child, "a process", kill_count);
        check(WIFSIGNALED(status), "the process stopped by itself", kill_count);
        check(open_store(words[1], !mapped) && play_opened(play), "an opening", kill_count);
        kgt_file_close(&file);
    }
    printf("kill_check: right, %lu kills, %llu commits\n", kills, (unsigned long long)play->committed);
    return 0;
}
