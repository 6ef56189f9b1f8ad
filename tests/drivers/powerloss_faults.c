/*
 * Faults that drivers written from docs/DRIVERS.md had: the power-loss kit must
 * find each, and its report must lead to it. Argument "show": prints the reports.
 */
#include <stdio.h>
#include <stdlib.h>
#include <string.h>

#include "kagutin_fram.h"
#include "powerloss/broken.h"

enum { GROUPS = 4, HOMES = 8, SIZE = KGT_LOG_SIZE(GROUPS) + KGT_HOMES_SIZE(HOMES), PART = 128 };

static uint8_t memory[KGT_POWERLOSS_SIZE(GROUPS, HOMES, 48)], medium[KGT_SIM_MEMORY(SIZE)];
static struct kgt_powerloss kit;
static struct broken_driver words;
static struct kgt_sim chip;
static struct kgt_fram fram;
static size_t homes_at; /* where the driver below has its homes */
static char report[8192];

static void keep_report(void *context, const char *text)
{
    (void)context;
    strncat(report, text, sizeof report - strlen(report) - 1);
}

/* ---- a driver for bytes that keeps the header as it comes ---- */

static int transfer(uint8_t what, size_t at, const uint8_t *out, uint8_t *in, size_t size)
{
    uint8_t command[3] = {what, (uint8_t)(at >> 8), (uint8_t)at};

    return kgt_sim_transfer(&chip, command, sizeof command, out, in, size);
}

static int load_bytes(void *context, enum kgt_area area, size_t at, uint8_t *bytes, size_t size)
{
    (void)context;
    return transfer(0x03, area == KGT_LOG ? at : homes_at + at, NULL, bytes, size);
}

static int write_bytes(void *context, enum kgt_area area, size_t at, const uint8_t *bytes, size_t size)
{
    uint8_t enable = 0x06;
    int error = kgt_sim_transfer(&chip, &enable, 1, NULL, NULL, 0);

    (void)context;
    return error ? error : transfer(0x02, area == KGT_LOG ? at : homes_at + at, bytes, NULL, size);
}

static int no_wait(void *context)
{
    (void)context;
    return 0;
}

static struct kgt_driver start_bytes(void *context)
{
    struct kgt_driver driver = {NULL, load_bytes, write_bytes, no_wait, KGT_LANDS_WORDS};

    driver.context = context;
    homes_at = KGT_LOG_SIZE(GROUPS);
    return driver;
}

/* The header's 64 bytes are forgotten. */
static struct kgt_driver start_misplaced(void *context)
{
    struct kgt_driver driver = start_bytes(context);

    homes_at = (size_t)KAGUTIN_GROUP_SIZE * GROUPS;
    return driver;
}

/* The first word alone is taken for a mistake. */
static int write_no_word(void *context, enum kgt_area area, size_t at, const uint8_t *bytes, size_t size)
{
    return size < KAGUTIN_BLOCK_SIZE ? 22 : write_bytes(context, area, at, bytes, size);
}

static struct kgt_driver start_refusing(void *context)
{
    struct kgt_driver driver = start_bytes(context);

    driver.write = write_no_word;
    return driver;
}

/* ---- the FRAM driver on a board whose transfers go out in parts ---- */

static bool enables_each, keeps_errors;

static int in_parts(void *bus, const uint8_t *command, size_t command_size, const uint8_t *out, uint8_t *in, size_t size)
{
    size_t at = command_size > 2 ? (size_t)command[1] << 8 | command[2] : 0, done, part;
    uint8_t enable = 0x06;
    int error = 0;

    if (command[0] != 0x02)
        return kgt_sim_transfer(bus, command, command_size, out, in, size);
    for (done = 0; done < size && !(error && keeps_errors); done += part) {
        part = size - done < PART ? size - done : PART;
        error = enables_each ? kgt_sim_transfer(bus, &enable, 1, NULL, NULL, 0) : 0;
        if (!error)
            error = transfer(0x02, at + done, out + done, NULL, part);
    }
    return error;
}

static struct kgt_driver start_parts(bool enables, bool keeps)
{
    enables_each = enables;
    keeps_errors = keeps;
    kgt_fram_init(&fram, GROUPS, 0, 2, in_parts, &chip);
    return kgt_fram_driver(&fram);
}

static struct kgt_driver start_good_parts(void *context)
{
    (void)context;
    return start_parts(true, true);
}

static struct kgt_driver start_enabled_once(void *context)
{
    (void)context;
    return start_parts(false, true);
}

static struct kgt_driver start_last_error(void *context)
{
    (void)context;
    return start_parts(true, false);
}

/* ---- blocks promised, on a medium of words ---- */

static struct kgt_driver start_blocks(void *context)
{
    struct kgt_driver driver = broken_start(&words);

    (void)context;
    driver.landing = KGT_LANDS_BLOCKS;
    return driver;
}

static const struct {
    const char *name;
    struct kgt_driver (*start)(void *context);
    enum kgt_duty duty;
    const char *told;
} faults[] = {
    {"transfers in parts", start_good_parts, KGT_DUTIES_KEPT, "trials"},
    {"header of bytes", start_bytes, KGT_DUTY_WRITE_WHOLE, "the header is torn"},
    {"homes misplaced", start_misplaced, KGT_DUTY_LOAD_COPIES, "look for a mistaken address"},
    {"a word refused", start_refusing, KGT_DUTY_ANSWER, "returned 22 though the medium has not failed"},
    {"enabled once", start_enabled_once, KGT_DUTY_FENCE, "it was not sent"},
    {"the last error alone", start_last_error, KGT_DUTY_FENCE, "one was not handed on"},
    {"blocks promised", start_blocks, KGT_DUTY_WRITE_WHOLE, "by KGT_LANDS_BLOCKS"},
};

int main(int count, char **arguments)
{
    unsigned i;

    (void)arguments;
    for (i = 0; i < sizeof faults / sizeof *faults; i++) {
        report[0] = '\0';
        broken_init(&words, BROKEN_NOT, medium, GROUPS, HOMES);
        if (faults[i].start != start_blocks)
            kgt_sim_init(&chip, medium, SIZE, 1);
        kgt_powerloss_init(&kit, memory, sizeof memory, GROUPS, HOMES);
        kit.start = faults[i].start;
        kit.medium = kgt_sim_medium(faults[i].start == start_blocks ? &words.sim : &chip);
        kit.bytes_in_order = faults[i].start != start_blocks;
        kit.every = 9;
        kit.histories = 1;
        kit.say = keep_report;
        kgt_powerloss_run(&kit);
        if (count > 1)
            printf("%s\n%s\n", faults[i].name, report);
        if (kit.fault.duty != faults[i].duty || !strstr(report, faults[i].told)) {
            printf("powerloss_faults: wrong: %s\n%s", faults[i].name, report);
            return 1;
        }
    }
    printf("powerloss_faults: %u drivers: right\n", i);
    return 0;
}
