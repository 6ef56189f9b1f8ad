/* The wear sheet as CSV: what could not be read and notes first, then the pumps, then what was left out. */
#include "sheet.h"

#include <inttypes.h>
#include <string.h>

static const char heading[] = WEAR_CSV_MARK
    ",interval_seconds,services_due,seconds_left_over,seconds_to_next,state,last_event,running_seconds,counted_to,run_bound,"
    "worn_seconds,worn_bound,last_service,new_starts,new_seconds,new_bound,change,sheet_date,note\n";

/* A field in quotes where it needs them. */
static void put_field(const char *text, FILE *file)
{
    if (!strpbrk(text, ",;\"") && *text != ' ' && *text != '#') {
        wear_put_name(text, file);
        return;
    }
    fputc('"', file);
    for (; *text; text++) {
        char one[2] = {0, 0};

        one[0] = *text;
        if (*text == '"')
            fputc('"', file);
        wear_put_name(one, file);
    }
    fputc('"', file);
}

/* A row without figures. */
static void put_told(const char *image, unsigned pump, const char *state, const char *day, const char *note, FILE *file)
{
    fputc(',', file);
    put_field(image ? image : "", file);
    if (pump == WEAR_NO_PUMP)
        fputc(',', file);
    else
        fprintf(file, ",%u", pump);
    fprintf(file, ",,,,,,,%s,,,,,,,,,,,,%s,", state, day);
    put_field(note, file);
    fputc('\n', file);
}

static void put_comparison(const struct wear_row *row, FILE *file)
{
    static const char *const changes[] = {"", "compared", "new", "not read then", "exchanged or reset"};

    if (row->change == WEAR_COMPARED)
        fprintf(file, ",%" PRIu64 ",%" PRIu64 ",%s", row->more_starts, row->more_seconds, wear_bound_name(row->more_bound));
    else
        fputs(",,,", file);
    fprintf(file, ",%s", changes[row->change]);
}

static void put_row(const struct wear_sheet *sheet, size_t at, const char *day, FILE *file)
{
    const struct wear_row *row = &sheet->rows[at];
    char state[WEAR_STATE];

    fprintf(file, "%lu,", (unsigned long)at + 1);
    put_field(sheet->stations[row->station].path, file);
    fprintf(file, ",%u,%" PRIu64 ",%" PRIu64 ",%" PRIu64 ",%" PRIu64 ",%" PRIu64 ",%" PRIu64, row->pump, row->starts,
            row->seconds, sheet->interval, row->services, row->left, sheet->interval - row->left);
    fprintf(file, ",%s,%" PRIu64 ",", row->running ? "running" : row->starts ? "stopped" : "never started", row->second);
    if (row->running)
        fprintf(file, "%" PRIu64 ",%" PRIu64 ",%s", row->run, row->counted_to, wear_bound_name(row->run_bound));
    else
        fputs("0,,exact", file);
    fprintf(file, ",%" PRIu64 ",%s,%s", row->worn, wear_bound_name(row->bound), row->serviced);
    put_comparison(row, file);
    fprintf(file, ",%s,", day);
    put_field(wear_state(row, state), file);
    fputc('\n', file);
}

void wear_csv(const struct wear_sheet *sheet, FILE *file)
{
    static const char *const states[] = {"unread", "gone", "note"};
    char day[DAY_TEXT], note[80];
    size_t i;

    day_write(sheet->day, day);
    fputs(heading, file);
    for (i = 0; i < sheet->remark_count; i++)
        put_told(sheet->remarks[i].image, sheet->remarks[i].pump, states[sheet->remarks[i].kind], day, sheet->remarks[i].text,
                 file);
    for (i = 0; i < sheet->count; i++)
        put_row(sheet, i, day, file);
    for (i = 0; i < sheet->station_count; i++)
        if (sheet->stations[i].idle) {
            snprintf(note, sizeof note, "%lu pumps never started", (unsigned long)sheet->stations[i].idle);
            put_told(sheet->stations[i].path, WEAR_NO_PUMP, "left out", day, note, file);
        }
}
