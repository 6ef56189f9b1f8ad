/* The wear sheet as text. */
#include "sheet.h"

#include <inttypes.h>

/* Characters of a name in UTF-8. */
static int length_of(const char *name)
{
    int length = 0;

    for (; *name; name++)
        length += ((unsigned char)*name & 0xc0) != 0x80;
    return length;
}

static int name_width(const struct wear_sheet *sheet)
{
    int width = length_of("station");
    size_t i;

    for (i = 0; i < sheet->count; i++)
        if (length_of(sheet->stations[sheet->rows[i].station].path) > width)
            width = length_of(sheet->stations[sheet->rows[i].station].path);
    return width > 60 ? 60 : width;
}

/* The name, and spaces up to the width. */
static void put_name(const char *name, int width, FILE *file)
{
    wear_put_name(name, file);
    fprintf(file, "%*s", length_of(name) < width ? width - length_of(name) : 0, "");
}

static void put_remarks(const struct wear_sheet *sheet, enum wear_kind kind, const char *heading, FILE *file)
{
    size_t i;
    bool begun = false;

    for (i = 0; i < sheet->remark_count; i++) {
        const struct wear_remark *remark = &sheet->remarks[i];

        if (remark->kind != kind)
            continue;
        fputs(begun ? "  " : heading, file);
        begun = true;
        if (remark->image) {
            wear_put_name(remark->image, file);
            if (remark->pump != WEAR_NO_PUMP)
                fprintf(file, ", pump %u", remark->pump);
            fputs(": ", file);
        }
        fprintf(file, "%s\n", remark->text);
    }
    if (begun)
        fputc('\n', file);
}

static void put_row(const struct wear_sheet *sheet, const struct wear_row *row, int width, FILE *file)
{
    char total[WEAR_HOURS], each[WEAR_HOURS], worn[WEAR_HOURS], next[WEAR_HOURS], more[WEAR_HOURS], due[WEAR_HOURS];
    char state[WEAR_STATE];
    uint64_t seconds = wear_total(row);

    put_name(sheet->stations[row->station].path, width, file);
    fprintf(file, "  %4u  %10" PRIu64 " %12s  %13s", row->pump, row->starts, wear_bounded(seconds, row->run_bound, total),
            wear_bounded(row->starts ? seconds / row->starts : 0, row->run_bound, each));
    if (sheet->serviced)
        fprintf(file, "  %13s", wear_bounded(row->worn, row->bound, worn));
    snprintf(due, sizeof due, "%s%" PRIu64, wear_bound_sign(row->bound), row->services);
    fprintf(file, "  %12s  %13s", due, wear_bounded(sheet->interval - row->left, wear_bound_left(row->bound), next));
    if (sheet->compared && row->change == WEAR_COMPARED)
        fprintf(file, "  %10" PRIu64 "  %12s", row->more_starts, wear_bounded(row->more_seconds, row->more_bound, more));
    else if (sheet->compared)
        fprintf(file, "  %10s  %12s", "-", "-");
    wear_state(row, state);
    fprintf(file, "%s%s\n", *state ? "  " : "", state);
}

/* What >= means, where it stands, and how to be rid of it. */
static void put_running(const struct wear_sheet *sheet, FILE *file)
{
    size_t running = 0, open = 0, i;

    for (i = 0; i < sheet->count; i++) {
        running += sheet->rows[i].running;
        open += sheet->rows[i].run_bound == WEAR_AT_LEAST;
    }
    if (running)
        fprintf(file, "%lu pump%s running", (unsigned long)running, running == 1 ? " is" : "s are");
    if (open)
        fprintf(file, "; %lu counted up to the station's last event only, at least (>=): --now SECOND counts on",
                (unsigned long)open);
    if (running)
        fputs("\n\n", file);
}

void wear_text(const struct wear_sheet *sheet, FILE *file)
{
    int width = name_width(sheet);
    char day[DAY_TEXT], last[DAY_TEXT] = "";
    size_t i;

    day_write(sheet->day, day);
    fprintf(file, "Wear sheet of %s: ", day);
    wear_put_stations(sheet, file);
    fprintf(file, ", service interval %" PRIu64 " h, the pump to open first at the top\n\n", sheet->interval / 3600);
    put_remarks(sheet, WEAR_UNREAD, "NOT READ, and missing below:\n  ", file);
    put_remarks(sheet, WEAR_GONE, "GONE since the last sheet:\n  ", file);
    put_remarks(sheet, WEAR_NOTE, "Note:\n  ", file);
    put_running(sheet, file);
    if (sheet->last_day >= 0)
        day_write(sheet->last_day, last);
    if (sheet->compared)
        fprintf(file, "New starts and hours are those since the %s%s\n\n", *last ? "sheet of " : "last sheet", last);
    put_name("station", width, file);
    fputs("  pump      starts    run hours  hours a start", file);
    fputs(sheet->serviced ? "  since service" : "", file);
    fputs("  services due  hours to next", file);
    fputs(sheet->compared ? "  new starts     new hours\n" : "\n", file);
    for (i = 0; i < sheet->count; i++)
        put_row(sheet, &sheet->rows[i], width, file);
    if (sheet->idle)
        fprintf(file, "\n%lu pump%s never started and %s left out; --all shows them\n", (unsigned long)sheet->idle,
                sheet->idle == 1 ? "" : "s", sheet->idle == 1 ? "is" : "are");
}
