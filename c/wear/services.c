/* Services done, what is worn since, and the order. */
#include <errno.h>
#include <inttypes.h>
#include <stdlib.h>
#include <string.h>

#include "common/command.h"
#include "common/csv.h"
#include "kagutin_hours.h"
#include "sheet.h"

enum { DAY_SECONDS = 86400 };

/* One row: the run seconds at the service, or its day. */
struct service {
    size_t station;
    unsigned pump;
    bool by_day;
    uint64_t seconds;
    int64_t day;
    const char *text;
};

/* Hours with up to two digits behind the point, as 4000h or 4000.25 h, in seconds. */
static bool read_hours(const char *text, uint64_t *seconds)
{
    uint64_t hundredths = 0, digits = 0, behind = 0;
    bool point = false;

    for (; (*text >= '0' && *text <= '9') || (*text == '.' && !point); text++) {
        point = point || *text == '.';
        if (*text == '.')
            continue;
        hundredths = hundredths * 10 + (uint64_t)(*text - '0');
        behind += point;
        if (++digits > 12 || behind > 2)
            return false;
    }
    for (; behind < 2; behind++)
        hundredths *= 10;
    while (*text == ' ')
        text++;
    *seconds = hundredths * 36;
    return digits > 0 && (strcmp(text, "h") == 0);
}

static bool read_seconds(const char *text, uint64_t *seconds)
{
    char *end;

    errno = 0;
    *seconds = strtoull(text, &end, 10);
    return text[0] >= '0' && text[0] <= '9' && !*end && !errno && *seconds <= UINT64_C(0xffffffffff);
}

static void quit(struct csv *csv)
{
    csv_close(csv);
    command_quit(STATUS_TROUBLE, "%s", csv->message);
}

static void quit_row(struct csv *csv, const char *what, const char *text)
{
    csv_complain(csv, what, text);
    quit(csv);
}

static struct service read_service(struct csv *csv)
{
    struct service service = {0, 0, false, 0, 0, NULL};
    const char *pump = csv->fields[1];

    while (csv->count > 3 && !*csv->fields[csv->count - 1])
        csv->count--;
    if (csv->count != 3)
        quit_row(csv, "%s", "a row has three fields: station, pump, and run seconds or day of the last service");
    if (pump[0] < '0' || pump[0] > '7' || pump[1])
        quit_row(csv, "pumps are numbered 0 to 7, not '%s'", pump);
    service.pump = (unsigned)(pump[0] - '0');
    service.text = csv->fields[2];
    service.by_day = day_read(service.text, &service.day);
    if (!service.by_day && !read_hours(service.text, &service.seconds) && !read_seconds(service.text, &service.seconds))
        quit_row(csv, "the last service is whole run seconds, hours as 4000h, or a day as YYYY-MM-DD, not '%s'", service.text);
    return service;
}

/* Whether a service contradicts the book, or may: then a remark says so. */
static bool is_refused(struct wear_sheet *sheet, const struct csv *csv, const struct wear_row *row, const struct service *service)
{
    const char *path = sheet->stations[row->station].path;

    if (!service->by_day && row->change == WEAR_RESET)
        wear_remark(sheet, WEAR_NOTE, path, row->pump,
                    "exchanged or reset since the last sheet: the service at %s (%s:%lu) may be of the book before and does not "
                    "count; its "
                    "day would",
                    service->text, csv->path, csv->line);
    else if (!service->by_day && service->seconds > wear_total(row))
        wear_remark(sheet, WEAR_NOTE, path, row->pump,
                    "the service at %s (%s:%lu) lies beyond its run hours and does not count: exchanged or reset since, or "
                    "mistyped",
                    service->text, csv->path, csv->line);
    else if (service->by_day && service->day > sheet->day)
        wear_remark(sheet, WEAR_NOTE, path, row->pump,
                    "the service of %s (%s:%lu) lies behind the day of this sheet and does not count", service->text, csv->path,
                    csv->line);
    else
        return false;
    return true;
}

/*
 * What is worn if this was the last service. By its day alone it is the most that can be: no more than the days since
 * have seconds, nor than the pump ran since the last sheet, if the service came later.
 */
static uint64_t worn_since(const struct wear_sheet *sheet, const struct wear_row *row, const struct service *service)
{
    uint64_t total = wear_total(row), most;

    if (!service->by_day)
        return total - service->seconds;
    most = (uint64_t)(sheet->day - service->day + 1) * DAY_SECONDS;
    if (row->change == WEAR_COMPARED && sheet->last_day >= 0 && sheet->last_day <= service->day && row->more_seconds < most)
        most = row->more_seconds;
    return total < most ? total : most;
}

static enum wear_bound bound_since(const struct wear_row *row, const struct service *service)
{
    if (!service->by_day)
        return row->run_bound;
    return row->run_bound == WEAR_EXACT ? WEAR_AT_MOST : WEAR_ABOUT;
}

/* Of several services of a pump, the one that leaves least is the last. */
static void take_service(struct wear_sheet *sheet, const struct csv *csv, const struct service *service)
{
    size_t i;

    for (i = 0; i < sheet->count; i++) {
        struct wear_row *row = &sheet->rows[i];

        if (row->station != service->station || row->pump != service->pump || is_refused(sheet, csv, row, service)
            || (row->serviced[0] && worn_since(sheet, row, service) > row->worn))
            continue;
        row->worn = worn_since(sheet, row, service);
        row->bound = bound_since(row, service);
        snprintf(row->serviced, sizeof row->serviced, "%s", service->text);
    }
}

/* A heading is one exactly if it names the first two fields; a mistyped row is none. */
static bool is_heading(const struct csv *csv)
{
    return csv->count >= 2 && (strcmp(csv->fields[0], "station") == 0 || strcmp(csv->fields[0], "image") == 0)
        && strcmp(csv->fields[1], "pump") == 0;
}

static void read_done(struct wear_sheet *sheet, const char *path)
{
    static struct csv csv;
    size_t rows = 0;
    enum csv_row got;

    if (!csv_open(&csv, path))
        command_quit(STATUS_TROUBLE, "%s", csv.message);
    while ((got = csv_read(&csv)) == CSV_ROW) {
        struct service service;

        if (rows++ == 0 && is_heading(&csv))
            continue;
        service = read_service(&csv);
        service.station = wear_find(sheet, csv.fields[0]);
        if (service.station == sheet->station_count)
            wear_remark(sheet, WEAR_NOTE, csv.fields[0], service.pump,
                        "has a service in %s:%lu and is none of the images, or "
                        "more than one",
                        path, csv.line);
        else
            take_service(sheet, &csv, &service);
    }
    if (got == CSV_BAD)
        quit(&csv);
    if (rows == 0)
        wear_remark(sheet, WEAR_NOTE, NULL, WEAR_NO_PUMP, "%s has no services", path);
    csv_close(&csv);
}

void wear_services(struct wear_sheet *sheet, const char *path)
{
    size_t i;

    for (i = 0; i < sheet->count; i++) {
        sheet->rows[i].worn = wear_total(&sheet->rows[i]);
        sheet->rows[i].bound = sheet->rows[i].run_bound;
    }
    if (path) {
        read_done(sheet, path);
        sheet->serviced = true;
    }
    for (i = 0; i < sheet->count; i++) {
        sheet->rows[i].services = sheet->rows[i].worn / sheet->interval;
        sheet->rows[i].left = sheet->rows[i].worn % sheet->interval;
    }
}

/* ---- order ---- */

/* Due before not known before not due. */
static int rank(const struct wear_row *row)
{
    if (row->services > 0)
        return 0;
    return row->run_bound == WEAR_AT_LEAST ? 1 : 2;
}

static int compare_rows(const void *first, const void *second)
{
    const struct wear_row *a = (const struct wear_row *)first, *b = (const struct wear_row *)second;

    if (rank(a) != rank(b))
        return rank(a) - rank(b);
    if (a->worn != b->worn)
        return a->worn < b->worn ? 1 : -1;
    if (a->starts != b->starts)
        return a->starts < b->starts ? 1 : -1;
    if (a->station != b->station)
        return a->station < b->station ? -1 : 1;
    return (int)a->pump - (int)b->pump;
}

void wear_order(struct wear_sheet *sheet, bool all)
{
    size_t kept = 0, i;

    for (i = 0; i < sheet->count; i++) {
        const struct wear_row *row = &sheet->rows[i];

        if (row->starts == 0 && !all && row->change != WEAR_RESET) {
            sheet->stations[row->station].idle++;
            sheet->idle++;
        } else {
            sheet->rows[kept++] = *row;
        }
    }
    sheet->count = kept;
    qsort(sheet->rows, sheet->count, sizeof *sheet->rows, compare_rows);
}
