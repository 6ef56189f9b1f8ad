/* What text, CSV and page say alike. */
#include "sheet.h"

#include <inttypes.h>
#include <string.h>

void wear_put_stations(const struct wear_sheet *sheet, FILE *file)
{
    if (sheet->read_count < sheet->asked_count)
        fprintf(file, "%lu of ", (unsigned long)sheet->read_count);
    fprintf(file, "%lu station%s", (unsigned long)sheet->asked_count, sheet->asked_count == 1 ? "" : "s");
}

uint64_t wear_total(const struct wear_row *row)
{
    return row->seconds + row->run;
}

const char *wear_hours(uint64_t seconds, char text[WEAR_HOURS])
{
    snprintf(text, WEAR_HOURS, "%" PRIu64 ".%02u", seconds / 3600, (unsigned)(seconds % 3600 / 36));
    return text;
}

const char *wear_bound_sign(enum wear_bound bound)
{
    static const char *const signs[] = {"", ">=", "<=", "~"};

    return signs[bound];
}

enum wear_bound wear_bound_left(enum wear_bound bound)
{
    return bound == WEAR_AT_LEAST ? WEAR_AT_MOST : bound == WEAR_AT_MOST ? WEAR_AT_LEAST : bound;
}

const char *wear_bounded(uint64_t seconds, enum wear_bound bound, char text[WEAR_HOURS])
{
    char hours[WEAR_HOURS];

    snprintf(text, WEAR_HOURS, "%s%.28s", wear_bound_sign(bound), wear_hours(seconds, hours));
    return text;
}

const char *wear_bound_name(enum wear_bound bound)
{
    static const char *const names[] = {"exact", "at least", "at most", "about"};

    return names[bound];
}

static void add(char text[WEAR_STATE], const char *more)
{
    size_t length = strlen(text);

    snprintf(text + length, WEAR_STATE - length, "%s%s", length ? "; " : "", more);
}

const char *wear_state(const struct wear_row *row, char text[WEAR_STATE])
{
    char part[160];

    text[0] = '\0';
    if (row->running) {
        snprintf(part, sizeof part, "RUNNING since second %" PRIu64 ", counted to %" PRIu64 "%s", row->second, row->counted_to,
                 row->run_bound == WEAR_EXACT ? "" : " only");
        add(text, part);
    }
    if (row->starts == 0)
        add(text, "never started");
    if (row->change == WEAR_RESET)
        add(text, "exchanged or reset");
    else if (row->change == WEAR_NOT_THEN)
        add(text, "not read in the last sheet");
    else if (row->change == WEAR_NEW)
        add(text, "new");
    if (row->serviced[0]) {
        snprintf(part, sizeof part, "serviced %s %s", strchr(row->serviced, '-') ? "on" : "at", row->serviced);
        add(text, part);
        if (!strchr(row->serviced, '-') && !strchr(row->serviced, 'h'))
            snprintf(text + strlen(text), WEAR_STATE - strlen(text), " s");
    }
    return text;
}

void wear_put_name(const char *name, FILE *file)
{
    for (; *name; name++)
        fputc((unsigned char)*name < 0x20 || *name == 0x7f ? '?' : *name, file);
}
