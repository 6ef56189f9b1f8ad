#include "rights.h"

#include <string.h>

#include "kagutin_bands.h"

enum { ALL = 65535 };

/* To store and to read. */
static void allow(struct kgt_rights *list, unsigned task, size_t first, size_t number)
{
    kgt_rights_allow_store(list, task, first, number);
    kgt_rights_allow_read(list, task, first, number);
}

void rights_make(struct kgt_rights *list)
{
    unsigned task;

    kgt_rights_clear(list);
    for (task = 0; task < KAGUTIN_WRITERS; task++) {
        allow(list, task, STATION_OWN(task), 1);
        allow(list, task, STATION_NOTES, ALL - STATION_NOTES);
    }
    allow(list, SWITCHING, KAGUTIN_BANDS_HOME, KAGUTIN_BANDS_HOMES);
    allow(list, RUN_HOURS, KAGUTIN_PUMP_HOME, KAGUTIN_PUMPS);
    allow(list, ALARMS, KAGUTIN_ALARMS_HOME, KAGUTIN_ALARMS_HOMES);
    kgt_rights_allow_read(list, SERVICE, 0, ALL);
}

/* The list's homes after all commits of the book. */
static void committed(const struct station *station, struct kgt_rights *list)
{
    memcpy(list->bytes, station->book.newest + kagutin_area_size(KGT_RIGHTS_HOME), sizeof list->bytes);
}

bool rights_are_set(const struct station *station)
{
    struct kgt_rights mine, list;

    rights_make(&mine);
    committed(station, &list);
    return memcmp(&mine, &list, sizeof mine) == 0;
}

bool rights_may_store(const struct station *station, unsigned writer, size_t home)
{
    struct kgt_rights list;

    committed(station, &list);
    return kgt_rights_may_store(&list, writer, home);
}

bool rights_may_read(const struct station *station, unsigned writer, size_t home)
{
    struct kgt_rights list;

    committed(station, &list);
    return kgt_rights_may_read(&list, writer, home);
}
