/*
 * The power-loss kit as on a board: a process is the board, and ends where the
 * relay cuts its power; another one is started and goes on with the notes. A
 * good driver passes, those that a cut alone finds out are found; so does the
 * file driver pass, its process killed. Argument: a folder for the file.
 */
#define _DEFAULT_SOURCE 1

#include <signal.h>
#include <stdio.h>
#include <stdlib.h>
#include <string.h>
#include <sys/mman.h>
#include <sys/wait.h>
#include <unistd.h>

#include "kagutin_file.h"
#include "powerloss/broken.h"

enum { GROUPS = 4, HOMES = 8, SIZE = KGT_LOG_SIZE(GROUPS) + KGT_HOMES_SIZE(HOMES), CUT = 99, MOST_STARTS = 5000, MOST_CALLS = 6 };

/* What outlives a board. */
struct lasting {
    struct broken_driver broken;
    uint8_t medium[KGT_SIM_MEMORY(SIZE)], notes[2][KGT_RELAY_NOTE];
    unsigned starts, asked; /* boards started; how often this one has asked for the cut */
    enum kgt_duty duty;
    unsigned calls; /* of the shortest history, behind its format */
    char report[4096];
};

static struct lasting *lasting;
static uint8_t memory[KGT_POWERLOSS_SIZE(GROUPS, HOMES, 48)];
static struct kgt_powerloss kit;
static struct kgt_file file;
static bool show;
static const char *path; /* of the image, where the file driver is tried */

static void check(bool right, const char *what, const char *driver)
{
    if (right)
        return;
    printf("relay_check: wrong: %s: %s\n%s", driver, what, lasting->report);
    exit(1);
}

/* ---- the board's functions ---- */

/* Power goes a few landings after it was asked for; a file's process is killed at once. */
static void cut(void *context)
{
    (void)context;
    if (path)
        kill(getpid(), SIGKILL);
    if (lasting->asked++)
        _exit(CUT);
    lasting->broken.sim.power = lasting->starts * 7 % 13;
}

static int note(void *context, unsigned place, const uint8_t *bytes, size_t size)
{
    (void)context;
    memcpy(lasting->notes[place], bytes, size);
    return 0;
}

static int recall(void *context, unsigned place, uint8_t *bytes, size_t size)
{
    (void)context;
    memcpy(bytes, lasting->notes[place], size);
    return 0;
}

static void say(void *context, const char *text)
{
    size_t length = strlen(lasting->report);

    (void)context;
    if (length + strlen(text) < sizeof lasting->report)
        memcpy(lasting->report + length, text, strlen(text) + 1);
}

/* Brings to the medium what the cache shows: so it takes a cut to see what a fence leaves there. */
static int flush_and_load(void *context, enum kgt_area area, size_t at, uint8_t *bytes, size_t size)
{
    struct broken_driver *broken = (struct broken_driver *)context;
    int error = kgt_sim_flush(&broken->sim);

    return error ? error : kgt_sim_read(&broken->sim, (area == KGT_LOG ? 0 : broken->log_size) + at, bytes, size);
}

static struct kgt_driver start_flushing(void *context)
{
    struct kgt_driver driver = broken_start(context);

    driver.load = flush_and_load;
    return driver;
}

static struct kgt_driver start_file(void *context)
{
    (void)context;
    kgt_file_close(&file);
    if (!kgt_file_open(&file, path) && !kgt_file_create(&file, path, GROUPS, HOMES)) {
        say(NULL, file.message);
        _exit(2);
    }
    return kgt_file_driver(&file);
}

/* ---- boards ---- */

static void board(unsigned histories, unsigned every)
{
    unsigned call;

    lasting->asked = 0;
    kgt_powerloss_init(&kit, memory, sizeof memory, GROUPS, HOMES);
    kit.start = path ? start_file : start_flushing;
    kit.context = &lasting->broken;
    kit.relay.cut = cut;
    kit.relay.note = note;
    kit.relay.recall = recall;
    kit.say = say;
    kit.histories = histories;
    kit.every = every;
    kit.format_once = path != NULL;
    file.descriptor = -1;
    kgt_powerloss_on_board(&kit);
    lasting->duty = kit.fault.duty;
    for (call = kit.prelude; call < kit.made; call++)
        lasting->calls += kit.calls[call].taken;
    _exit(0);
}

/* Starts boards until one says what was found. */
static void try_driver(enum broken kind, const char *name, unsigned histories, unsigned every)
{
    struct kgt_medium medium;
    int status = CUT << 8;

    memset(lasting, 0, sizeof *lasting);
    broken_init(&lasting->broken, kind, lasting->medium, GROUPS, HOMES);
    medium = kgt_sim_medium(&lasting->broken.sim);
    while (status != 0) {
        pid_t process;

        check(lasting->starts++ < MOST_STARTS, "it ends", name);
        fflush(stdout);
        process = fork();
        if (process == 0)
            board(histories, every);
        check(process > 0 && waitpid(process, &status, 0) == process, "a process", name);
        check(status == 0 || status == (path ? SIGKILL : CUT << 8), "a cut", name);
        medium.cut(medium.context, (enum kgt_choice)(lasting->starts % 3), lasting->starts);
    }
    printf("relay_check: %s: %s; %u starts of the board\n", name, kgt_duty_text(lasting->duty), lasting->starts);
}

static void check_found(enum broken kind, enum kgt_duty duty)
{
    try_driver(kind, broken_names[kind], 1, 1);
    check(lasting->duty == duty, "the duty", broken_names[kind]);
    check(strstr(lasting->report, kgt_duty_text(duty)) && strstr(lasting->report, " holds "), "a report", broken_names[kind]);
    check(lasting->calls <= MOST_CALLS, "a short history", broken_names[kind]);
    if (show)
        printf("%s", lasting->report);
}

int main(int count, char **words)
{
    char image[4096];

    lasting = (struct lasting *)mmap(NULL, sizeof *lasting, PROT_READ | PROT_WRITE, MAP_SHARED | MAP_ANONYMOUS, -1, 0);
    if (lasting == MAP_FAILED || count < 2)
        return 2;
    show = count > 2;
    try_driver(BROKEN_NOT, broken_names[BROKEN_NOT], 1, 1);
    check(lasting->duty == KGT_DUTIES_KEPT, "its duties", broken_names[BROKEN_NOT]);
    check_found(BROKEN_NO_FENCE, KGT_DUTY_FENCE);
    check_found(BROKEN_FENCE_EARLY, KGT_DUTY_FENCE);
    check_found(BROKEN_WORDS_TORN, KGT_DUTY_WRITE_WHOLE);
    snprintf(image, sizeof image, "%s/relay.img", words[1]);
    unlink(image);
    path = image;
    try_driver(BROKEN_NOT, "the file driver", 0, 3);
    unlink(image);
    check(lasting->duty == KGT_DUTIES_KEPT, "its duties", "the file driver");
    puts("relay_check: right");
    return 0;
}
