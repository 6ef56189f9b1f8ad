/* The wear sheet as one HTML page with a plot; it needs nothing beside itself. */
#include "sheet.h"

#include <inttypes.h>

#include "page_parts.h"

enum { MOST_LINES = 12, MOST_LABELS = 5 };

/* The axis: whole intervals, a line at every step of them, and a number at some. */
struct axis {
    uint64_t interval, intervals, step, labels;
};

static void put_text(const char *text, FILE *file)
{
    for (; *text; text++) {
        switch (*text) {
        case '<': fputs("&lt;", file); break;
        case '>': fputs("&gt;", file); break;
        case '&': fputs("&amp;", file); break;
        case '"': fputs("&quot;", file); break;
        case '\'': fputs("&#39;", file); break;
        default: fputc((unsigned char)*text < 0x20 || *text == 0x7f ? '?' : *text, file);
        }
    }
}

static void put_pieces(const char *const *pieces, FILE *file)
{
    for (; *pieces; pieces++)
        fputs(*pieces, file);
}

static const char *sign(enum wear_bound bound)
{
    static const char *const signs[] = {"", "≥&nbsp;", "≤&nbsp;", "≈&nbsp;"};

    return signs[bound];
}

static void put_hours(uint64_t seconds, enum wear_bound bound, FILE *file)
{
    char hours[WEAR_HOURS];

    fprintf(file, "%s%s", sign(bound), wear_hours(seconds, hours));
}

/* ---- what is told before the pumps ---- */

static void put_remarks(const struct wear_sheet *sheet, enum wear_kind kind, const char *name, const char *heading, FILE *file)
{
    size_t i, count = 0;

    for (i = 0; i < sheet->remark_count; i++) {
        const struct wear_remark *remark = &sheet->remarks[i];

        if (remark->kind != kind)
            continue;
        if (count++ == 0)
            fprintf(file, "<section class=\"told %s\">\n<h2>%s</h2>\n<ul>\n", name, heading);
        fputs("<li>", file);
        if (remark->image) {
            fputs("<b>", file);
            put_text(remark->image, file);
            if (remark->pump != WEAR_NO_PUMP)
                fprintf(file, ", pump %u", remark->pump);
            fputs("</b>: ", file);
        }
        put_text(remark->text, file);
        fputs("</li>\n", file);
    }
    if (count)
        fputs("</ul>\n</section>\n", file);
}

static void put_summary(const struct wear_sheet *sheet, const char *day, FILE *file)
{
    size_t due = 0, running = 0, open = 0, i;
    char last[DAY_TEXT] = "last sheet";

    for (i = 0; i < sheet->count; i++) {
        due += sheet->rows[i].services > 0;
        running += sheet->rows[i].running;
        open += sheet->rows[i].run_bound == WEAR_AT_LEAST;
    }
    fprintf(file, "<h1>Wear sheet of <time datetime=\"%s\">%s</time></h1>\n<p>", day, day);
    wear_put_stations(sheet, file);
    fprintf(file,
            ", %lu pump%s, %lu with a service due, %lu running; a service each %" PRIu64 " run hours. The pump to open first "
            "stands at the top.",
            (unsigned long)sheet->count, sheet->count == 1 ? "" : "s", (unsigned long)due, (unsigned long)running,
            sheet->interval / 3600);
    if (open)
        fprintf(file, " %lu of those that run %s counted up to the last event of their station only: at least (≥).",
                (unsigned long)open, open == 1 ? "is" : "are");
    if (sheet->last_day >= 0)
        day_write(sheet->last_day, last);
    if (sheet->compared)
        fprintf(file, " New hours and starts are those since the %s%s.", sheet->last_day >= 0 ? "sheet of " : "", last);
    if (sheet->idle)
        fprintf(file, " %lu that never started %s left out.", (unsigned long)sheet->idle, sheet->idle == 1 ? "is" : "are");
    fputs("</p>\n", file);
}

/* ---- plot ---- */

static struct axis axis_of(const struct wear_sheet *sheet)
{
    struct axis axis = {sheet->interval, 1, 1, 1};
    uint64_t steps;
    size_t i;

    for (i = 0; i < sheet->count; i++)
        if (sheet->rows[i].worn / sheet->interval >= axis.intervals)
            axis.intervals = sheet->rows[i].worn / sheet->interval + (sheet->rows[i].left > 0);
    axis.step = (axis.intervals + MOST_LINES - 1) / MOST_LINES;
    steps = axis.intervals / axis.step;
    axis.labels = axis.step * ((steps + MOST_LABELS - 1) / MOST_LABELS);
    return axis;
}

static double percent(const struct axis *axis, uint64_t seconds)
{
    return 100.0 * (double)seconds / ((double)axis->interval * (double)axis->intervals);
}

static void put_axis(const struct axis *axis, const char *title, FILE *file)
{
    uint64_t i;

    fprintf(file, "<span>%s</span><svg class=\"axis\" aria-hidden=\"true\">", title);
    for (i = 0; i <= axis->intervals; i += axis->labels)
        fprintf(file, "<text x=\"%.2f%%\" y=\"14\" text-anchor=\"%s\">%" PRIu64 "%s</text>", percent(axis, i * axis->interval),
                i == 0                     ? "start"
                    : i == axis->intervals ? "end"
                                           : "middle",
                i * axis->interval / 3600, i ? "" : " h");
    fputs("</svg>", file);
}

static void put_bar(const struct axis *axis, const struct wear_row *row, FILE *file)
{
    double due = percent(axis, row->worn - row->left), end = percent(axis, row->worn);
    double run = percent(axis, row->run < row->worn ? row->run : row->worn);
    uint64_t i;

    fputs("<svg class=\"bar\" aria-hidden=\"true\">", file);
    for (i = 0; i <= axis->intervals; i += axis->step)
        fprintf(file, "<line%s x1=\"%.2f%%\" y1=\"0\" x2=\"%.2f%%\" y2=\"20\"/>", i ? "" : " class=\"zero\"",
                percent(axis, i * axis->interval), percent(axis, i * axis->interval));
    fprintf(file, "<rect class=\"due\" x=\"0\" y=\"3\" width=\"%.2f%%\" height=\"14\"/>", due);
    fprintf(file, "<rect class=\"left\" x=\"%.2f%%\" y=\"3\" width=\"%.2f%%\" height=\"14\"/>", due, end - due);
    if (row->running)
        fprintf(file,
                "<rect class=\"run\" x=\"%.2f%%\" y=\"3\" width=\"%.2f%%\" height=\"14\"/><svg x=\"%.2f%%\" y=\"3\">"
                "<path class=\"on\" d=\"M2 1 L9 7 L2 13 Z\"/></svg>",
                end - run, run, end);
    fputs("</svg>", file);
}

/* ---- table ---- */

static void put_head(const struct wear_sheet *sheet, const struct axis *axis, FILE *file)
{
    fputs("<table id=\"pumps\" role=\"table\">\n<caption>Hours to the next are those to the next whole interval since the last "
          "service known, or since the station was formatted.</caption>\n<thead role=\"rowgroup\"><tr role=\"row\">"
          "<th scope=\"col\" role=\"columnheader\" class=\"order\">order</th>"
          "<th scope=\"col\" role=\"columnheader\" class=\"name\">",
          file);
    put_axis(axis, sheet->serviced ? "station, pump; run hours since the last service" : "station, pump; run hours", file);
    fputs("</th><th scope=\"col\" role=\"columnheader\">run hours</th>", file);
    if (sheet->serviced)
        fputs("<th scope=\"col\" role=\"columnheader\">since service</th>", file);
    fputs("<th scope=\"col\" role=\"columnheader\">services due</th><th scope=\"col\" role=\"columnheader\">hours to next</th>"
          "<th scope=\"col\" role=\"columnheader\">starts</th><th scope=\"col\" role=\"columnheader\">hours a start</th>",
          file);
    if (sheet->compared)
        fputs("<th scope=\"col\" role=\"columnheader\">new hours</th><th scope=\"col\" role=\"columnheader\">new starts</th>",
              file);
    fputs("</tr></thead>\n", file);
}

static void put_foot(const struct wear_sheet *sheet, const struct axis *axis, FILE *file)
{
    fputs("</tbody>\n<tfoot role=\"rowgroup\"><tr role=\"row\"><td class=\"order\" role=\"cell\"></td>"
          "<td class=\"name\" role=\"cell\">",
          file);
    put_axis(axis, "", file);
    fprintf(file, "</td><td colspan=\"%d\" role=\"cell\"></td></tr></tfoot>\n</table>\n",
            5 + sheet->serviced + 2 * sheet->compared);
}

static void put_name(const struct wear_sheet *sheet, const struct axis *axis, const struct wear_row *row, FILE *file)
{
    char state[WEAR_STATE];

    fputs("<th scope=\"row\" role=\"rowheader\" class=\"name\">", file);
    put_text(sheet->stations[row->station].path, file);
    fprintf(file, ", pump&nbsp;%u", row->pump);
    wear_state(row, state);
    if (*state) {
        bool grave = row->running || row->change == WEAR_RESET;

        fprintf(file, "<span class=\"state\">%s", grave ? "<b>" : "");
        put_text(state, file);
        fprintf(file, "%s</span>", grave ? "</b>" : "");
    }
    put_bar(axis, row, file);
    fputs("</th>", file);
}

static void put_comparison(const struct wear_row *row, FILE *file)
{
    fputs("<td class=\"figure\" role=\"cell\" data-label=\"new hours\">", file);
    if (row->change == WEAR_COMPARED)
        put_hours(row->more_seconds, row->more_bound, file);
    else
        fputs("–", file);
    fputs("</td><td class=\"figure\" role=\"cell\" data-label=\"new starts\">", file);
    if (row->change == WEAR_COMPARED)
        fprintf(file, "%" PRIu64 "</td>", row->more_starts);
    else
        fputs("–</td>", file);
}

static void put_figures(const struct wear_sheet *sheet, const struct wear_row *row, FILE *file)
{
    fputs("<td class=\"figure\" role=\"cell\" data-label=\"run hours\">", file);
    put_hours(wear_total(row), row->run_bound, file);
    if (sheet->serviced) {
        fputs("</td><td class=\"figure\" role=\"cell\" data-label=\"since service\">", file);
        put_hours(row->worn, row->bound, file);
    }
    fprintf(file, "</td><td class=\"figure services\" role=\"cell\" data-label=\"services due\">%s%" PRIu64 "</td>",
            sign(row->bound), row->services);
    fputs("<td class=\"figure\" role=\"cell\" data-label=\"hours to next\">", file);
    put_hours(sheet->interval - row->left, wear_bound_left(row->bound), file);
    fprintf(file, "</td><td class=\"figure\" role=\"cell\" data-label=\"starts\">%" PRIu64 "</td>", row->starts);
    fputs("<td class=\"figure\" role=\"cell\" data-label=\"hours a start\">", file);
    put_hours(row->starts ? wear_total(row) / row->starts : 0, row->run_bound, file);
    fputs("</td>", file);
    if (sheet->compared)
        put_comparison(row, file);
}

/* A number by which the page is sorted or filtered. */
static void put_data(const char *name, uint64_t number, FILE *file)
{
    fprintf(file, " data-%s=\"%" PRIu64 "\"", name, number);
}

static void put_row(const struct wear_sheet *sheet, const struct axis *axis, size_t at, FILE *file)
{
    const struct wear_row *row = &sheet->rows[at];

    fprintf(file, "<tr role=\"row\"%s", row->services ? " class=\"due\"" : "");
    put_data("order", at + 1, file);
    put_data("pump", row->pump, file);
    put_data("due", row->services, file);
    put_data("hours", wear_total(row), file);
    put_data("worn", row->worn, file);
    put_data("starts", row->starts, file);
    put_data("each", row->starts ? wear_total(row) / row->starts : 0, file);
    fprintf(file, " data-state=\"%s%s\" data-station=\"", row->running ? "running " : "",
            row->change == WEAR_RESET ? "reset" : "");
    put_text(sheet->stations[row->station].path, file);
    fprintf(file, "\"><td class=\"order\" role=\"cell\" data-label=\"order\">%lu</td>", (unsigned long)at + 1);
    put_name(sheet, axis, row, file);
    put_figures(sheet, row, file);
    fputs("</tr>\n", file);
}

void wear_page(const struct wear_sheet *sheet, FILE *file)
{
    struct axis axis = axis_of(sheet);
    char day[DAY_TEXT];
    size_t i;

    day_write(sheet->day, day);
    fprintf(file,
            WEAR_PAGE_MARK " -->\n<html lang=\"en\">\n<head>\n<meta charset=\"utf-8\">\n"
                           "<meta name=\"viewport\" content=\"width=device-width, initial-scale=1\">\n"
                           "<title>Wear sheet of %s</title>\n<style>\n",
            day);
    put_pieces(wear_page_style, file);
    fputs("</style>\n</head>\n<body>\n<main>\n", file);
    put_summary(sheet, day, file);
    put_remarks(sheet, WEAR_UNREAD, "unread", "Not read, and missing below", file);
    put_remarks(sheet, WEAR_GONE, "gone", "Gone since the last sheet", file);
    put_remarks(sheet, WEAR_NOTE, "note", "Note", file);
    put_pieces(wear_page_controls, file);
    fputs("<p class=\"legend\"><span><svg aria-hidden=\"true\"><rect class=\"due\" width=\"12\" height=\"12\"/></svg>whole "
          "services "
          "due</span><span><svg aria-hidden=\"true\"><rect class=\"left\" width=\"12\" height=\"12\"/></svg>left "
          "over</span><span>"
          "<svg aria-hidden=\"true\"><path class=\"on\" d=\"M2 0 L9 6 L2 12 Z\"/></svg>runs, and wears on</span><span>a dashed "
          "line "
          "where a service falls due</span></p>\n",
          file);
    put_head(sheet, &axis, file);
    fputs("<tbody role=\"rowgroup\">\n", file);
    for (i = 0; i < sheet->count; i++)
        put_row(sheet, &axis, i, file);
    put_foot(sheet, &axis, file);
    fputs("</main>\n", file);
    put_pieces(wear_page_script, file);
    fputs("</body>\n</html>\n", file);
}
