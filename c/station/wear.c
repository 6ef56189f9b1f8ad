#include "wear.h"

#include "event_calls.h"
#include "rights.h"

enum { SERVICE_HOURS = 50 }; /* of finished runs between two services */

static const char *const tasks[KAGUTIN_WRITERS] = {
    "level", "switching", "run hours", "alarms", "radio", "energy", "rain gauge", "service",
};

struct pump {
    unsigned long long starts, seconds, services, left;
};

static void read_pumps(struct station *station, struct pump pumps[KAGUTIN_PUMPS])
{
    unsigned i;

    for (i = 0; i < KAGUTIN_PUMPS; i++) {
        struct kagutin_hours hours = call_hours(station, SERVICE, i);
        struct kagutin_services services = call_services(station, SERVICE, i, 3600 * SERVICE_HOURS);

        pumps[i] = (struct pump){hours.starts, hours.seconds, services.due, services.left};
    }
}

static void print_csv(const struct pump pumps[KAGUTIN_PUMPS])
{
    unsigned i;

    puts("pump,starts,run_seconds,seconds_per_start,services_due,seconds_left_over");
    for (i = 0; i < KAGUTIN_PUMPS; i++)
        printf("%u,%llu,%llu,%llu,%llu,%llu\n", i, pumps[i].starts, pumps[i].seconds,
               pumps[i].starts ? pumps[i].seconds / pumps[i].starts : 0, pumps[i].services, pumps[i].left);
}

static void print_pumps(const struct pump pumps[KAGUTIN_PUMPS])
{
    unsigned i, most = 0;

    for (i = 1; i < KAGUTIN_PUMPS; i++)
        if (pumps[i].seconds > pumps[most].seconds)
            most = i;
    printf("\nWear sheet of finished runs, a service each %d hours\n", SERVICE_HOURS);
    puts("  pump    starts       run time  seconds a start  services due");
    for (i = 0; i < KAGUTIN_PUMPS; i++)
        printf("  %4u  %8llu %5lluh %02llum %02llus  %15llu  %12llu%s\n", i, pumps[i].starts, pumps[i].seconds / 3600,
               pumps[i].seconds / 60 % 60, pumps[i].seconds % 60, pumps[i].starts ? pumps[i].seconds / pumps[i].starts : 0,
               pumps[i].services, i == most && pumps[most].seconds ? "  <- open this one first" : "");
}

static void print_tasks(const struct station *station)
{
    const struct counters *counters = &station->counters;
    unsigned task;

    fputs("\nCommits by task\n  task  name           kept      lost  never issued\n", station->report);
    for (task = 0; task < KAGUTIN_WRITERS; task++)
        fprintf(station->report, "  %4u  %-10s %8lu  %8lu  %12lu\n", task, tasks[task], counters->kept[task],
                counters->lost[task], counters->unissued[task]);
}

static void print_panel(struct station *station)
{
    struct kagutin_alarm alarm = call_gravest(station, SERVICE);
    unsigned long second = (unsigned long)alarm.second;

    if (alarm.alarm_class)
        fprintf(station->report, "\nPanel: alarm %u, class %u, since %02lu:%02lu:%02lu\n", (unsigned)alarm.identity,
                (unsigned)alarm.alarm_class, second / 3600, second / 60 % 60, second % 60);
    else
        fputs("\nPanel: no alarm open\n", station->report);
}

void wear_sheet(struct station *station)
{
    struct pump pumps[KAGUTIN_PUMPS];

    print_tasks(station);
    print_panel(station);
    read_pumps(station, pumps);
    if (station->csv)
        print_csv(pumps);
    else
        print_pumps(pumps);
}
