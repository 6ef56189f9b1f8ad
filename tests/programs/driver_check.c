/* The driver by itself: damaged batches, subsets at a cut, fences, confirm, a file that shrinks. */
#include "station/driver.h"

#include <stdio.h>
#include <string.h>
#include <unistd.h>

enum { GROUPS = 4, HOMES = 8 };

static struct driver driver;
static size_t batch_size;
static int failures;

static void check(bool right, const char *what)
{
    if (!right) {
        fprintf(stderr, "driver_check: wrong: %s (last message: %s)\n", what, driver_message(&driver));
        failures++;
    }
}

static void add(const char *mark, int place, size_t size, uint8_t fill)
{
    uint8_t *to = driver.batch + batch_size;

    memset(to, fill, size);
    memcpy(to, mark, 2);
    if (place >= 0) {
        to[2] = (uint8_t)place;
        to[3] = (uint8_t)(place >> 8);
    }
    batch_size += size;
}

static void add_home(int home, uint8_t fill)
{
    add("HW", home, KAGUTIN_HW_SIZE, fill);
}

static bool submit(void)
{
    size_t size = batch_size;

    batch_size = 0;
    return driver_submit(&driver, size);
}

static bool lands_by_mask(void *context, size_t index)
{
    return (*(unsigned *)context >> index & 1) != 0;
}

static bool lands_never(void *context, size_t index)
{
    (void)context;
    (void)index;
    return false;
}

static void check_refused(const char *what)
{
    size_t waiting = driver_waiting(&driver);

    check(!submit(), what);
    check(driver_waiting(&driver) == waiting, "a refused batch queues nothing");
    check(strstr(driver_message(&driver), "damaged batch") != NULL, "the message says so");
    driver_cut(&driver, lands_never, NULL);
}

static void check_damaged_batches(void)
{
    add("XX", -1, 2, 0);
    check_refused("unknown mark");
    add_home(1, 1);
    add("GW", 0, KAGUTIN_GW_SIZE - 1, 1);
    check_refused("record cut short");
    add("GW", GROUPS, KAGUTIN_GW_SIZE, 1);
    check_refused("slot outside the ring");
    add_home(HOMES, 1);
    check_refused("home outside the area");
    add_home(3, 1);
    add_home(3, 2);
    check_refused("block written twice between two fences");
    add_home(3, 1);
    driver.batch[batch_size] = 'F';
    batch_size++;
    check_refused("one byte left over");
    check(!driver_submit(&driver, (uint64_t)driver.batch_size + 1), "more bytes than the buffer has");
}

/* Three writes after a fence: each of the eight subsets, and nothing else, persists. */
static void check_subsets(void)
{
    unsigned mask;

    for (mask = 0; mask < 8; mask++) {
        uint8_t fill = (uint8_t)(0x10 + mask);
        int home;

        add_home(0, fill);
        add("FN", -1, 2, 0);
        for (home = 1; home < 5; home++)
            add_home(home, fill);
        check(submit(), "a sound batch");
        for (home = 0; home < 5; home++)
            check(driver_step(&driver), "step");
        check(driver_issued(&driver) == 3 && driver_waiting(&driver) == 1, "three issued, one waits");
        check(driver_cut(&driver, lands_by_mask, &mask), "cut");
        check(driver_issued(&driver) + driver_waiting(&driver) == 0, "a cut leaves no record");
        check(driver.area[0] == 0xA5, "a cut spoils the copies");
        check(driver_load(&driver) && driver.area[0] == fill, "what was fenced is there");
        for (home = 1; home < 4; home++)
            check((driver.area[64 * home] == fill) == (mask >> (home - 1) & 1), "exactly the subset is there");
        check(driver.area[64 * 4] == 0, "what was not issued is not there");
    }
}

static void check_confirm(void)
{
    struct kagutin_reply reply;

    check(driver_load(&driver), "load");
    reply = kagutin_open(driver.log, driver.log_size, driver.area, driver.area_size, driver.state, sizeof driver.state,
                         driver.newest, driver.newest_size, driver.batch, driver.batch_size);
    check(reply.code == KAGUTIN_DONE && driver_submit(&driver, reply.size), "open");
    check(!driver_confirm(&driver, &reply), "no confirm while a fence waits");
    check(driver_step(&driver) && !driver_confirm(&driver, &reply), "one fence passed, one waits");
    check(driver_run(&driver) && driver_confirm(&driver, &reply) && reply.code == KAGUTIN_DONE, "all passed");
}

static void check_file(const char *path)
{
    struct driver second;

    check(driver_create(&driver, path, GROUPS, HOMES), "create");
    check(!driver_create(&second, path, GROUPS, HOMES), "an image is never written over");
    driver_close(&second);
    add_home(2, 0x77);
    add("FN", -1, 2, 0);
    check(submit() && driver_run(&driver), "a durable fence");
    driver_close(&driver);
    check(driver_open(&driver, path) && driver.groups == GROUPS && driver.homes == HOMES, "open again");
    check(driver.area[64 * 2] == 0x77, "what was fenced is in the file");
    add_home(2, 0x78);
    add("FN", -1, 2, 0);
    check(submit() && truncate(path, 100) == 0, "the file shrinks");
    check(!driver_run(&driver), "a fence over a short file does not pass");
    check(!driver_load(&driver), "nor is it loaded");
    driver_close(&driver);
    check(!driver_open(&driver, path), "nor opened");
    driver_close(&driver);
    unlink(path);
}

int main(int count, char **words)
{
    if (count != 2) {
        fputs("usage: driver_check SCRATCH-FILE\n", stderr);
        return 2;
    }
    check(!driver_create_unnamed(&driver, 3, 8), "3 groups are too few");
    driver_close(&driver);
    check(!driver_create_unnamed(&driver, 4, 65536), "65536 homes are too many");
    driver_close(&driver);
    check(driver_create_unnamed(&driver, GROUPS, HOMES), "an unnamed image");
    check_damaged_batches();
    check_subsets();
    check_confirm();
    driver_close(&driver);
    check_file(words[1]);
    puts(failures ? "driver: FAILED" : "driver: damaged batches, subsets, fences, confirm and short files are right");
    return failures != 0;
}
