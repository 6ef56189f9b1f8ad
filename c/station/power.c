/* Work, power cuts and openings. Each opening is held against the book of commits. */
#include "power.h"

#include <stdlib.h>

#include "calls.h"
#include "event_calls.h"
#include "refusals.h"
#include "report.h"
#include "tasks.h"

void power_refuse_image(struct station *station, const char *why)
{
    fprintf(stderr, "station: %s: no station's image: %s\n", station->path ? station->path : "temporary file", why);
    station_free(station);
    exit(EXIT_TROUBLE);
}

/* Which blocks of the issued writes persist: none, all, all but one, one, any, or nearly all. */
struct choice {
    struct station *station;
    unsigned mode;
    size_t one, persisted;
};

static bool lands(void *context, size_t index)
{
    struct choice *choice = context;
    bool picked;

    switch (choice->mode) {
    case 0: picked = false; break;
    case 1: picked = true; break;
    case 2: picked = index != choice->one; break;
    case 3: picked = index == choice->one; break;
    case 4: picked = station_random(choice->station, 20) != 0; break;
    default: picked = station_random(choice->station, 2) == 0; break;
    }
    choice->persisted += picked;
    return picked;
}

static void issue_some(struct station *station, uint64_t count)
{
    while (count-- > 0)
        if (!driver_step(&station->driver))
            station_trouble(station);
}

static void power_cut(struct station *station, bool opening, struct report_cut *cut)
{
    struct driver *driver = &station->driver;
    struct choice choice = {station, (unsigned)station_random(station, 7), 0, 0};
    uint64_t groups;

    issue_some(station, station_random(station, driver_waiting(driver) + 1));
    if (station_random(station, 3))
        while (driver_write_waits(driver))
            issue_some(station, 1);
    cut->opening = opening;
    cut->waiting = driver_waiting(driver);
    cut->issued = driver_blocks_issued(driver);
    groups = driver_groups_issued(driver);
    choice.one = (size_t)station_random(station, cut->issued);
    if (!driver_cut(driver, lands, &choice))
        station_trouble(station);
    cut->persisted = choice.persisted;
    book_power_cut(&station->book, groups, &cut->book);
    events_power_cut(&station->events, cut->book.run);
    tasks_power_cut(station);
    station->opened = false;
    station->counters.cuts++;
    station->counters.opening_cuts += opening;
    report_cut(station, cut);
    if (cut->book.owed_lost)
        station_mismatch(station, "a commit that was confirmed durable has an entry that did not persist");
}

/* Loads and opens once; false if the image is worn out. */
static bool open_once(struct station *station)
{
    if (!driver_load(&station->driver))
        station_trouble(station);
    if (refusal_if_worn_out(station))
        return false;
    if (station_random(station, 3) == 0)
        refusal_try_open(station);
    call_open(station);
    station->opened = true;
    return true;
}

/* Opens until it stays open; power may fail while opening, too. cut: the one before, or null. */
static void power_up(struct station *station, struct report_cut *cut)
{
    for (;;) {
        unsigned long replayed = station->counters.replayed;

        if (!open_once(station)) {
            if (cut)
                report_left(station, cut);
            return;
        }
        if (!cut && !events_start(&station->events, station->driver.area))
            power_refuse_image(station, "its homes of pumps and alarms hold something else");
        call_check_events(station);
        if (!cut) {
            station->second = events_latest(&station->events.kept);
            tasks_set_rights(station);
            return;
        }
        report_opened(station, cut, station->counters.replayed - replayed);
        if (station->counters.cuts + 1 >= station->cuts || station_random(station, 5)) {
            tasks_set_rights(station);
            return;
        }
        power_cut(station, true, cut);
    }
}

/* Settles in small steps, so that pump switching goes on; now and then all at once. */
static void settle_some(struct station *station, uint64_t calm)
{
    if (station->book.in_round && station_random(station, 6 * calm) == 0)
        call_step_round(station, 1 + (size_t)station_random(station, 3));
    if (station_random(station, 60 * calm))
        return;
    if (!station->book.in_round && station_random(station, 4))
        call_begin_round(station);
    else
        call_settle(station);
}

/*
 * Work between two cuts. The memory follows at once, slowly, or hardly at all;
 * at times next to no fence comes between, so that a cut finds many writes.
 */
static void work(struct station *station)
{
    uint64_t steps = 1 + station_random(station, station_random(station, 3) ? 150 : 600);
    uint64_t pace = station_random(station, 3);
    uint64_t calm = station_random(station, 5) < 2 ? 50 : 1;
    uint64_t flushes = station_random(station, 2) ? 25 : 200; /* one in so many steps */

    station->abort_odds = station_random(station, 3) ? 10 : 2;
    station->storm = station_random(station, 4) == 0;
    while (steps-- > 0 && !station_stops(station)) {
        tasks_step(station);
        if (station_random(station, flushes * calm) == 0)
            call_flush(station);
        if (station_random(station, 60 * calm) == 0)
            call_confirm(station);
        settle_some(station, calm);
        if (station_random(station, 80 * calm) == 0)
            call_trim(station);
        if (station_random(station, 40) == 0)
            refusal_try(station);
        if (pace == 0 && !driver_run(&station->driver))
            station_trouble(station);
        if (pace == 1)
            issue_some(station, station_random(station, 3));
    }
}

void power_run(struct station *station)
{
    struct report_cut cut;

    power_up(station, NULL);
    while (station->counters.cuts < station->cuts && !station_stops(station)) {
        work(station);
        if (station_stops(station))
            break;
        power_cut(station, false, &cut);
        if (station->keep_cut && station->counters.cuts == station->cuts) {
            report_left(station, &cut);
            return;
        }
        power_up(station, &cut);
    }
    if (!station->opened)
        return;
    tasks_stop(station);
    call_confirm(station); /* leaves an image in which all has persisted */
    call_usage(station);
}
