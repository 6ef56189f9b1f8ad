/* The comparison with the last sheet: a CSV that this program has written. */
#include <errno.h>
#include <stdlib.h>
#include <string.h>

#include "common/command.h"
#include "common/csv.h"
#include "sheet.h"

enum { DAY_SECONDS = 86400 };

/* Columns by their names in the heading; those from STATE on may be missing, as in sheets of earlier versions. */
enum column { IMAGE, PUMP, STARTS, RUN_SECONDS, STATE, LAST_EVENT, RUNNING_SECONDS, RUN_BOUND, SHEET_DATE, COLUMNS };

static const char *const column_names[COLUMNS] = {
    "image", "pump", "starts", "run_seconds", "state", "last_event", "running_seconds", "run_bound", "sheet_date",
};

struct past {
    char *image;
    size_t station; /* station_count: not among the images */
    unsigned pump;  /* WEAR_NO_PUMP: the row is about the station */
    uint64_t starts, seconds, run, second;
    bool read, running, has_second, used;
    bool open;   /* it ran, and its hours are more than told */
    bool unsure; /* a sheet of an earlier version does not say whether it ran */
};

struct last_sheet {
    struct past *rows;
    size_t count;
    size_t places[COLUMNS]; /* CSV_FIELDS: no such column */
};

static const char *field(const struct csv *csv, const struct last_sheet *last, enum column column)
{
    return last->places[column] < csv->count ? csv->fields[last->places[column]] : "";
}

static void quit(struct csv *csv)
{
    csv_close(csv);
    command_quit(STATUS_TROUBLE, "%s", csv->message);
}

static void quit_row(struct csv *csv, const char *what, const char *text)
{
    csv_complain(csv, what, text);
    quit(csv);
}

static uint64_t number(struct csv *csv, const struct last_sheet *last, enum column column)
{
    const char *text = field(csv, last, column);
    char *end;
    unsigned long long value;

    errno = 0;
    value = strtoull(text, &end, 10);
    if (text[0] < '0' || text[0] > '9' || *end || errno || value > UINT64_C(0xffffffffff)) {
        csv_complain(csv, "%s is no whole number: '%s'", column_names[column], text);
        quit(csv);
    }
    return value;
}

static void read_heading(struct csv *csv, struct last_sheet *last)
{
    enum csv_row got = csv_read(csv);
    int column;
    size_t i;

    if (got == CSV_BAD)
        quit(csv);
    if (got == CSV_END) {
        csv_close(csv);
        command_quit(STATUS_TROUBLE, "%s: no wear sheet: it is empty", csv->path);
    }
    for (column = 0; column < COLUMNS; column++) {
        last->places[column] = CSV_FIELDS;
        for (i = 0; i < csv->count; i++)
            if (strcmp(csv->fields[i], column_names[column]) == 0)
                last->places[column] = i;
        if (column < STATE && last->places[column] == CSV_FIELDS)
            quit_row(csv, "no wear sheet: the heading has no column %s", column_names[column]);
    }
}

/* One row; what is not about a pump, or about one that was not read, has no figures. */
static void read_row(struct csv *csv, struct wear_sheet *sheet, struct last_sheet *last)
{
    const char *state = field(csv, last, STATE), *pump = field(csv, last, PUMP);
    struct past *row;
    int64_t day;

    if (day_read(field(csv, last, SHEET_DATE), &day) && day > sheet->last_day)
        sheet->last_day = day;
    if (strcmp(state, "note") == 0 || strcmp(state, "gone") == 0)
        return;
    last->rows = (struct past *)wear_room(last->rows, last->count + 1, sizeof *last->rows);
    row = &last->rows[last->count++];
    memset(row, 0, sizeof *row);
    row->image = strcpy((char *)wear_room(NULL, strlen(field(csv, last, IMAGE)) + 1, 1), field(csv, last, IMAGE));
    row->station = wear_find(sheet, row->image);
    row->pump = !*pump ? (unsigned)WEAR_NO_PUMP : (unsigned)(pump[0] - '0');
    if (*pump && (pump[0] < '0' || pump[0] > '7' || pump[1]))
        quit_row(csv, "pumps are numbered 0 to 7, not '%s'", pump);
    row->read = strcmp(state, "unread") != 0;
    if (!row->read || row->pump == WEAR_NO_PUMP)
        return;
    row->starts = number(csv, last, STARTS);
    row->seconds = number(csv, last, RUN_SECONDS);
    row->running = strcmp(state, "running") == 0;
    row->has_second = *field(csv, last, LAST_EVENT) != '\0';
    row->second = row->has_second ? number(csv, last, LAST_EVENT) : 0;
    row->run = *field(csv, last, RUNNING_SECONDS) ? number(csv, last, RUNNING_SECONDS) : 0;
    row->unsure = last->places[STATE] == CSV_FIELDS;
    row->open = row->unsure || (row->running && strcmp(field(csv, last, RUN_BOUND), "exact") != 0);
}

/* Two rows of one pump cannot both be the last. */
static void check_doubles(const struct csv *csv, const struct wear_sheet *sheet, const struct last_sheet *last)
{
    size_t i, j;

    for (i = 0; i < last->count; i++)
        for (j = 0; j < i && last->rows[i].station < sheet->station_count && last->rows[i].pump != WEAR_NO_PUMP; j++)
            if (last->rows[j].station == last->rows[i].station && last->rows[j].pump == last->rows[i].pump)
                command_quit(STATUS_TROUBLE, "%s: pump %u of %s stands there twice, also as %s", csv->path, last->rows[i].pump,
                             last->rows[i].image, last->rows[j].image);
}

/* ---- comparison ---- */

static bool went_back(const struct wear_row *row, const struct past *past)
{
    if (row->starts < past->starts || row->seconds < past->seconds || (past->has_second && row->second < past->second))
        return true;
    if (row->starts > past->starts || past->unsure)
        return false;
    if (past->running)
        return row->running && (row->seconds != past->seconds || (past->has_second && row->second != past->second));
    return row->running || row->seconds != past->seconds;
}

/* More run seconds than there were between the two days. */
static void check_pace(struct wear_sheet *sheet, const struct wear_row *row)
{
    char hours[WEAR_HOURS];
    int64_t days = sheet->day - sheet->last_day;

    if (sheet->last_day < 0 || days < 0 || row->more_seconds <= (uint64_t)(days + 1) * DAY_SECONDS)
        return;
    wear_remark(sheet, WEAR_NOTE, sheet->stations[row->station].path, row->pump,
                "ran %s h since the last sheet, of %lld days before: exchanged, reset, or another station's image",
                wear_hours(row->more_seconds, hours), (long long)days);
}

static void compare_row(struct wear_sheet *sheet, struct wear_row *row, const struct past *past, bool was_unread)
{
    static const struct past never;
    uint64_t total = wear_total(row), before;

    if (!sheet->stations[row->station].in_last) {
        row->change = WEAR_NEW;
        return;
    }
    if ((past && !past->read) || (!past && was_unread)) {
        row->change = WEAR_NOT_THEN;
        return;
    }
    past = past ? past : &never;
    if (went_back(row, past)) {
        row->change = WEAR_RESET;
        return;
    }
    before = past->seconds + past->run;
    row->change = WEAR_COMPARED;
    row->more_starts = row->starts - past->starts;
    row->more_seconds = total > before ? total - before : 0;
    row->more_bound =
        row->run_bound == WEAR_EXACT ? (past->open ? WEAR_AT_MOST : WEAR_EXACT) : (past->open ? WEAR_ABOUT : WEAR_AT_LEAST);
    check_pace(sheet, row);
}

static void compare_rows(struct wear_sheet *sheet, struct last_sheet *last)
{
    size_t i, j;

    for (i = 0; i < sheet->count; i++) {
        struct wear_row *row = &sheet->rows[i];
        struct past *past = NULL;
        bool was_unread = false;

        for (j = 0; j < last->count; j++) {
            if (last->rows[j].station != row->station)
                continue;
            if (last->rows[j].pump == row->pump)
                past = &last->rows[j];
            was_unread = was_unread || (last->rows[j].pump == WEAR_NO_PUMP && !last->rows[j].read);
        }
        if (past)
            past->used = true;
        compare_row(sheet, row, past, was_unread);
    }
}

/* Whether something about this pump is among what could not be read. */
static bool is_unread(const struct wear_sheet *sheet, size_t station, unsigned pump)
{
    size_t i;

    for (i = 0; i < sheet->remark_count; i++)
        if (sheet->remarks[i].kind == WEAR_UNREAD && sheet->remarks[i].pump == pump
            && strcmp(sheet->remarks[i].image, sheet->stations[station].path) == 0)
            return true;
    return sheet->stations[station].unread;
}

static bool is_told(const struct last_sheet *last, size_t at)
{
    size_t i;

    for (i = 0; i < at; i++)
        if (strcmp(last->rows[i].image, last->rows[at].image) == 0)
            return true;
    return false;
}

static void tell_gone(struct wear_sheet *sheet, const struct last_sheet *last)
{
    size_t i;

    for (i = 0; i < last->count; i++) {
        const struct past *past = &last->rows[i];

        if (past->station == sheet->station_count) {
            if (!is_told(last, i))
                wear_remark(sheet, WEAR_GONE, past->image, WEAR_NO_PUMP, "stands in the last sheet and is not among the images");
        } else if (!past->used && past->pump != WEAR_NO_PUMP && past->starts && !is_unread(sheet, past->station, past->pump)) {
            wear_remark(sheet, WEAR_GONE, past->image, past->pump, "stands in the last sheet and is not in the image");
        }
    }
    for (i = 0; i < sheet->station_count; i++)
        if (sheet->stations[i].read && !sheet->stations[i].in_last)
            wear_remark(sheet, WEAR_NOTE, sheet->stations[i].path, WEAR_NO_PUMP, "new: not in the last sheet");
}

static void tell_reset(struct wear_sheet *sheet)
{
    size_t i;

    for (i = 0; i < sheet->count; i++)
        if (sheet->rows[i].change == WEAR_RESET)
            wear_remark(sheet, WEAR_NOTE, sheet->stations[sheet->rows[i].station].path, sheet->rows[i].pump,
                        "exchanged or reset: its book contradicts the last sheet");
}

static void forget(struct last_sheet *last)
{
    size_t i;

    for (i = 0; i < last->count; i++)
        free(last->rows[i].image);
    free(last->rows);
    memset(last, 0, sizeof *last);
}

void wear_compare(struct wear_sheet *sheet, const char *path)
{
    static struct last_sheet last;
    static struct csv csv;
    enum csv_row got;
    size_t i;

    forget(&last);
    if (!csv_open(&csv, path))
        command_quit(STATUS_TROUBLE, "%s", csv.message);
    read_heading(&csv, &last);
    while ((got = csv_read(&csv)) == CSV_ROW)
        read_row(&csv, sheet, &last);
    if (got == CSV_BAD)
        quit(&csv);
    csv_close(&csv);
    check_doubles(&csv, sheet, &last);
    if (sheet->last_day > sheet->day)
        wear_remark(sheet, WEAR_NOTE, NULL, WEAR_NO_PUMP, "the last sheet, %s, is of a later day than this one", path);
    for (i = 0; i < last.count; i++)
        if (last.rows[i].station < sheet->station_count)
            sheet->stations[last.rows[i].station].in_last = true;
    compare_rows(sheet, &last);
    tell_reset(sheet);
    tell_gone(sheet, &last);
    sheet->compared = true;
    forget(&last);
}
