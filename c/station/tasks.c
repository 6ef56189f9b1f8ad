/*
 * The eight tasks. Task w has home w; homes from 32 on are notes that all tasks
 * write, several blocks in one transaction. The run-hours task also switches
 * the pumps in the hours book, the alarm task raises and clears alarms. The
 * radio task reserves its places.
 */
#include "tasks.h"

#include <string.h>

#include "calls.h"
#include "event_calls.h"
#include "rights.h"

enum { RADIO = 4, STEP_SECONDS = 30 };

/* Homes of the notes, with repetitions; the log's size bounds the long ones. */
static void plan_notes(struct station *station, struct task *task)
{
    size_t notes = station->driver.homes > STATION_NOTES ? station->driver.homes - STATION_NOTES : 0;
    size_t most = station_random(station, 12) ? 5 : 40, count, i;

    if (!notes)
        return;
    count = (size_t)station_random(station, most);
    for (i = 0; i < count; i++) {
        uint64_t home = station_random(station, notes < 8 || station_random(station, 2) ? notes : 8);

        task->plan[task->count++] = (uint16_t)(STATION_NOTES + home);
    }
}

/* The task's own block, anywhere among the notes. */
static void plan_own(struct station *station, struct task *task, unsigned writer)
{
    size_t at = (size_t)station_random(station, task->count + 1);

    task->plan[task->count++] = task->plan[at];
    task->plan[at] = (uint16_t)STATION_OWN(writer);
}

/* The log is full: free what can be freed. Open transactions may hold it. */
static void make_room(struct station *station)
{
    if (!call_flush(station))
        call_settle(station); /* its fence is as good, but for the part-filled group */
    call_settle(station);
    if (station_random(station, 2))
        call_confirm(station);
    call_trim(station);
}

static void plan(struct station *station, struct task *task, unsigned writer)
{
    memset(task, 0, sizeof *task);
    task->gives_up = station_random(station, station->abort_odds) == 0;
    if (station_random(station, 30) == 0)
        return; /* a transaction without a store */
    plan_notes(station, task);
    if (station_random(station, 4))
        plan_own(station, task, writer);
}

/* The radio task must not fail half way: it reserves a place for each block of its plan, or waits. */
static void task_begin(struct station *station, struct task *task, unsigned writer)
{
    plan(station, task, writer);
    task->open = true;
    if (writer != RADIO || task->count == 0) {
        call_begin(station, writer);
        return;
    }
    if (call_reserve(station, writer, task->count))
        return;
    make_room(station);
    task->open = call_reserve(station, writer, task->count);
    station->counters.waits += !task->open;
}

/* A pump starts if it is idle, else it stops. */
static struct event pump_event(struct station *station)
{
    unsigned pump = (unsigned)station_random(station, KAGUTIN_PUMPS);

    return (struct event){station->events.newest.pumps[pump].running ? PUMP_STOPS : PUMP_STARTS, pump, 0, station->second, 0};
}

/* An alarm comes, in a storm more often than not, or the next open one from a place on clears. */
static struct event alarm_event(struct station *station)
{
    const struct event_sums *sums = &station->events.newest;
    unsigned open = events_open(sums), at = (unsigned)station_random(station, EVENT_ALARMS);
    bool arrives = open == 0 || (open < KAGUTIN_MAX_ALARMS && station_random(station, 5) < (station->storm ? 4 : 2));

    while ((sums->alarms[at].alarm_class == 0) != arrives)
        at = (at + 1) % EVENT_ALARMS;
    if (!arrives)
        return (struct event){ALARM_CLEARS, at, 0, station->second, 0};
    return (struct event){ALARM_ARRIVES, at, KAGUTIN_MIN_CLASS + (unsigned)station_random(station, KAGUTIN_MAX_CLASS),
                          station->second, 0};
}

/* If the log stays full the task tries another event later. */
static void task_event(struct station *station, unsigned writer)
{
    struct event event = writer == RUN_HOURS ? pump_event(station) : alarm_event(station);

    if (call_event(station, writer, &event))
        return;
    make_room(station);
    call_event(station, writer, &event);
}

/* Stores the next block of the plan, or ends the transaction; false if the log is full. */
static bool task_advance(struct station *station, struct task *task, unsigned writer)
{
    uint8_t block[KAGUTIN_BLOCK_SIZE];
    size_t i;

    if (task->next < task->count) {
        for (i = 0; i < KAGUTIN_BLOCK_SIZE; i++)
            block[i] = (uint8_t)station_random(station, 256);
        if (!call_store(station, writer, task->plan[task->next], block))
            return false;
        task->next++;
        return true;
    }
    if (task->gives_up)
        call_abort(station, writer);
    else if (!call_commit(station, writer))
        return false;
    task->open = false;
    return true;
}

void tasks_step(struct station *station)
{
    unsigned writer = (unsigned)station_random(station, KAGUTIN_WRITERS);
    struct task *task = &station->tasks[writer];
    uint8_t block[KAGUTIN_BLOCK_SIZE];

    if (station->second < UINT32_MAX - STEP_SECONDS)
        station->second += (uint32_t)station_random(station, STEP_SECONDS);
    if (station_random(station, 8) == 0)
        call_read(station, writer, (size_t)station_random(station, station->driver.homes), block);
    if (!task->open && (writer == RUN_HOURS || writer == ALARMS) && station_random(station, 5)) {
        task_event(station, writer);
        return;
    }
    if (!task->open) {
        task_begin(station, task, writer);
        return;
    }
    if (task_advance(station, task, writer))
        return;
    if (writer == RADIO)
        station_mismatch(station, "the radio task was refused a place that it had reserved");
    make_room(station);
    if (task_advance(station, task, writer))
        return;
    call_abort(station, writer);
    task->open = false;
    station->counters.given_up++;
}

void tasks_set_rights(struct station *station)
{
    struct kgt_rights list;
    size_t i;

    if (rights_are_set(station))
        return;
    rights_make(&list);
    call_begin(station, 0);
    for (i = 0; i < KGT_RIGHTS_HOMES; i++)
        if (!call_store(station, 0, KGT_RIGHTS_HOME + i, list.bytes + kagutin_area_size(i)))
            station_mismatch(station, "there is no room for the list of rights in an empty log");
    if (!call_commit(station, 0))
        station_mismatch(station, "there is no room for the list of rights in an empty log");
    station->counters.lists++;
    if (station_random(station, 2) && call_flush(station))
        call_confirm(station); /* else a cut may take it, and the next opening finds none */
}

void tasks_power_cut(struct station *station)
{
    memset(station->tasks, 0, sizeof station->tasks);
}

void tasks_stop(struct station *station)
{
    unsigned writer;

    for (writer = 0; writer < KAGUTIN_WRITERS; writer++)
        if (station->tasks[writer].open)
            call_abort(station, writer);
    memset(station->tasks, 0, sizeof station->tasks);
}
