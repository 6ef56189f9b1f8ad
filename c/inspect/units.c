/* What lies in the homes of depth bands, pumps and alarms, as an opening leaves them. */
#include <stdio.h>
#include <string.h>

#include "common/records.h"
#include "inspect.h"

enum { BLOCK = 64, MOST_HOMES = 6 };

/* The blocks of homes with an owner. */
enum found { FOUND, TOO_FEW, UNKNOWN };

static enum found find(const struct image *image, const struct fates *fates, size_t first, size_t number, uint8_t *blocks)
{
    size_t i;

    if (image->log.homes < first + number)
        return TOO_FEW;
    if (!image_knows(image, fates, first, number))
        return UNKNOWN;
    for (i = 0; i < number; i++)
        image_home(image, fates, first + i, blocks + BLOCK * i);
    return FOUND;
}

static void check_seals(struct image *image, const struct fates *fates)
{
    uint8_t block[BLOCK];
    size_t home;

    for (home = 0; home < image->log.homes; home++) {
        if (!image_knows(image, fates, home, 1))
            continue;
        image_home(image, fates, home, block);
        if (record_seal_broken(home, block))
            image_note(image, "home %lu: sealed, and its checksum does not fit", (unsigned long)home);
    }
}

void units_check(struct image *image, const struct fates *fates)
{
    uint8_t blocks[BLOCK * MOST_HOMES];
    struct alarms_record alarms;
    struct bands_record bands;
    struct pump_record pump;
    const char *why;
    size_t i;

    check_seals(image, fates);
    if (find(image, fates, RECORD_BANDS_HOME, RECORD_BANDS_HOMES, blocks) == FOUND && (why = record_bands(blocks, &bands)))
        image_note(image, "homes 12 to 14: no table of depth bands: %s", why);
    for (i = 0; i < RECORD_PUMPS; i++)
        if (find(image, fates, RECORD_PUMP_HOME + i, 1, blocks) == FOUND && (why = record_pump(blocks, &pump)))
            image_note(image, "home %lu: no record of pump %lu: %s", (unsigned long)(RECORD_PUMP_HOME + i), (unsigned long)i,
                       why);
    if (find(image, fates, RECORD_ALARMS_HOME, RECORD_ALARMS_HOMES, blocks) == FOUND && (why = record_alarms(blocks, &alarms)))
        image_note(image, "homes 24 to 29: no list of alarms: %s", why);
}

/* ---- text ---- */

static void text_bands(const uint8_t *blocks)
{
    struct bands_record bands;
    const char *why = record_bands(blocks, &bands);
    size_t i;

    if (why) {
        printf("\nbands: ! homes 12 to 14 hold no table: %s\n", why);
        return;
    }
    printf(bands.count ? "\nbands, by the table in homes 12 to 14\n" : "\nbands: no table\n");
    for (i = 0; i < bands.count; i++)
        printf("  %4u to %4u mm  %u pump%s\n", bands.rows[i].from, bands.rows[i].to, bands.rows[i].pumps,
               bands.rows[i].pumps == 1 ? "" : "s");
}

static void text_pumps(const struct image *image, const struct fates *fates)
{
    uint8_t block[BLOCK];
    struct pump_record pump;
    size_t i;

    puts("\npumps, homes 16 to 23");
    for (i = 0; i < RECORD_PUMPS && RECORD_PUMP_HOME + i < image->log.homes; i++) {
        bool known = find(image, fates, RECORD_PUMP_HOME + i, 1, block) == FOUND;
        const char *why = known ? record_pump(block, &pump) : NULL;

        if (!known)
            printf("  pump %lu  not read, " NOT_READ "\n", (unsigned long)i);
        else if (why)
            printf("  pump %lu  ! home %lu holds no record of a pump: %s\n", (unsigned long)i,
                   (unsigned long)(RECORD_PUMP_HOME + i), why);
        else if (pump.starts == 0)
            printf("  pump %lu  never started\n", (unsigned long)i);
        else
            printf("  pump %lu  %lu starts, %lu seconds in finished runs, %s since second %lu\n", (unsigned long)i,
                   (unsigned long)pump.starts, (unsigned long)pump.seconds, pump.running ? "running" : "stands",
                   (unsigned long)pump.second);
    }
}

static void text_alarms(const uint8_t *blocks)
{
    struct alarms_record alarms;
    const char *why = record_alarms(blocks, &alarms);
    size_t i;

    if (why) {
        printf("\nalarms: ! homes 24 to 29 hold no list of alarms: %s\n", why);
        return;
    }
    if (alarms.count == 0) {
        puts("\nalarms: none open");
        return;
    }
    printf("\nalarms (%lu), in the order of their arrival; the gravest is %u\n", (unsigned long)alarms.count,
           alarms.gravest.identity);
    for (i = 0; i < alarms.count; i++)
        printf("  alarm %5u  class %u  since second %lu\n", alarms.open[i].identity, alarms.open[i].alarm_class,
               (unsigned long)alarms.open[i].second);
}

void text_units(const struct image *image, const struct fates *fates)
{
    uint8_t blocks[BLOCK * MOST_HOMES];
    enum found found = find(image, fates, RECORD_BANDS_HOME, RECORD_BANDS_HOMES, blocks);

    if (found == FOUND)
        text_bands(blocks);
    else if (found == UNKNOWN)
        puts("\nbands: not read, " NOT_READ);
    if (image->log.homes > RECORD_PUMP_HOME)
        text_pumps(image, fates);
    found = find(image, fates, RECORD_ALARMS_HOME, RECORD_ALARMS_HOMES, blocks);
    if (found == FOUND)
        text_alarms(blocks);
    else if (found == UNKNOWN)
        puts("\nalarms: not read, " NOT_READ);
}

/* ---- JSON: null where the image has no such homes, {"why":..} where they hold something else, {"not_read":..} where that is not known ---- */

static void json_missing(enum found found)
{
    fputs(found == UNKNOWN ? "{\"not_read\":\"" NOT_READ "\"}" : "null", stdout);
}

static void json_why(const char *why)
{
    printf("{\"why\":\"%s\"}", why);
}

static void json_bands(const uint8_t *blocks)
{
    struct bands_record bands;
    const char *why = record_bands(blocks, &bands);
    size_t i;

    if (why) {
        json_why(why);
        return;
    }
    putchar('[');
    for (i = 0; i < bands.count; i++)
        printf("%s{\"from\":%u,\"to\":%u,\"pumps\":%u}", i ? "," : "", bands.rows[i].from, bands.rows[i].to, bands.rows[i].pumps);
    putchar(']');
}

static void json_pumps(const struct image *image, const struct fates *fates)
{
    uint8_t block[BLOCK];
    struct pump_record pump;
    size_t i;

    putchar('[');
    for (i = 0; i < RECORD_PUMPS && RECORD_PUMP_HOME + i < image->log.homes; i++) {
        enum found found = find(image, fates, RECORD_PUMP_HOME + i, 1, block);
        const char *why = found == FOUND ? record_pump(block, &pump) : NULL;

        fputs(i ? ",\n  " : "\n  ", stdout);
        if (found != FOUND)
            json_missing(found);
        else if (why)
            json_why(why);
        else
            printf("{\"starts\":%lu,\"seconds\":%lu,\"second\":%lu,\"running\":%s}", (unsigned long)pump.starts,
                   (unsigned long)pump.seconds, (unsigned long)pump.second, pump.running ? "true" : "false");
    }
    putchar(']');
}

static void json_alarms(const uint8_t *blocks)
{
    struct alarms_record alarms;
    const char *why = record_alarms(blocks, &alarms);
    size_t i;

    if (why) {
        json_why(why);
        return;
    }
    printf("{\"gravest\":");
    if (alarms.count)
        printf("%u", alarms.gravest.identity);
    else
        fputs("null", stdout);
    fputs(",\"open\":[", stdout);
    for (i = 0; i < alarms.count; i++)
        printf("%s{\"identity\":%u,\"class\":%u,\"second\":%lu}", i ? "," : "", alarms.open[i].identity,
               alarms.open[i].alarm_class, (unsigned long)alarms.open[i].second);
    fputs("]}", stdout);
}

void json_units(const struct image *image, const struct fates *fates)
{
    uint8_t blocks[BLOCK * MOST_HOMES];
    enum found found = find(image, fates, RECORD_BANDS_HOME, RECORD_BANDS_HOMES, blocks);

    fputs("\"bands\":", stdout);
    if (found == FOUND)
        json_bands(blocks);
    else
        json_missing(found);
    fputs(",\n \"pumps\":", stdout);
    json_pumps(image, fates);
    fputs(",\n \"alarms\":", stdout);
    found = find(image, fates, RECORD_ALARMS_HOME, RECORD_ALARMS_HOMES, blocks);
    if (found == FOUND)
        json_alarms(blocks);
    else
        json_missing(found);
}
