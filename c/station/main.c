/*
 * A pump station that loses power again and again. Eight tasks write
 * interleaved transactions; each opening is held against the book of commits.
 */
#include <signal.h>
#include <stdlib.h>
#include <string.h>
#include <unistd.h>

#include "calls.h"
#include "common/homes.h"
#include "kagutin/programs.h"
#include "options.h"
#include "power.h"
#include "report.h"
#include "rights.h"
#include "wear.h"

static void on_persisted(void *context, const struct kgt_record *record, uint64_t number, unsigned blocks)
{
    if (record->kind == KGT_GW && record->bytes[0]) /* a blank group is no row */
        book_persisted(context, number, blocks);
}

/* Has a station made this image? It then has the station's list of rights, or nothing in it yet. */
static bool is_own(const struct station *station)
{
    struct kgt_rights mine;
    struct homes homes;
    size_t i = 0;
    bool own;

    if (!homes_read(&homes, station->path, 0, true))
        return true; /* the opening says why */
    rights_make(&mine);
    own = memcmp(homes.blocks + kagutin_area_size(KGT_RIGHTS_HOME), mine.bytes, sizeof mine.bytes) == 0;
    while (i < kagutin_area_size(homes.homes) && !homes.blocks[i])
        i++;
    own = own || i == kagutin_area_size(homes.homes);
    homes_free(&homes);
    return own;
}

/* A foreign image is refused before anything in it is changed. */
static void check_old_image(struct station *station)
{
    const struct driver *driver = &station->driver;

    if (driver->homes < STATION_MIN_HOMES)
        power_refuse_image(station, "it has fewer than 30 homes");
    if ((station->groups && station->groups != driver->groups) || (station->homes && station->homes != driver->homes))
        power_refuse_image(station, "it has other numbers of groups and homes; leave --groups and --homes out");
    if (!station->go_on && !is_own(station))
        power_refuse_image(station,
                           "it holds something, and no station's list of rights; with --go-on its homes are written over");
}

static void attach_image(struct station *station)
{
    size_t groups = station->groups ? station->groups : 24, homes = station->homes ? station->homes : 48;
    struct driver *driver = &station->driver;
    bool old = station->path && access(station->path, F_OK) == 0;

    if (!(old                 ? driver_open(driver, station->path)
              : station->path ? driver_create(driver, station->path, groups, homes)
                              : driver_create_unnamed(driver, groups, homes)))
        station_trouble(station);
    if (old) {
        check_old_image(station);
    } else {
        call_formatted(station);
        book_start(&station->book, groups, homes, NULL);
    }
    driver->persisted = on_persisted;
    driver->context = &station->book;
    station->before =
        malloc(driver->log_size + driver->area_size + sizeof driver->state + driver->newest_size + driver->batch_size);
    if (!station->before) {
        fputs("station: out of memory\n", stderr);
        exit(EXIT_TROUBLE);
    }
}

static int status_of(const struct station *station)
{
    if (fflush(stdout) != 0 || ferror(stdout)) {
        fputs("station: cannot write the output\n", stderr);
        return EXIT_TROUBLE;
    }
    if (station->worn_out)
        return EXIT_WORN_OUT;
    return station_interrupted() ? EXIT_INTERRUPTED : EXIT_FINE;
}

int station_main(int count, char **words)
{
    static struct station station;

    station.seed = 1;
    station.cuts = 300;
    driver_clear(&station.driver);
    options_read(&station, count, words);
    station.report = station.csv ? stderr : stdout;
    station.random = station.seed;
    signal(SIGXFSZ, SIG_IGN); /* a file-size limit then reads as a full disk */
    attach_image(&station);
    station_catch_interrupt();
    report_start(&station);
    power_run(&station);
    report_summary(&station);
    if (station.opened)
        wear_sheet(&station);
    station_free(&station);
    return status_of(&station);
}
