/* Makes the wear sheet of images: starts, run hours and services due of each pump. */
#include "wear.h"

#include <stdlib.h>
#include <string.h>

#include "common/command.h"
#include "common/page_file.h"
#include "kagutin_hours.h"
#include "sheet.h"

/* Remarks by what they are: what could not be read first. */
static void sort_remarks(struct wear_sheet *sheet)
{
    size_t i, j;

    for (i = 1; i < sheet->remark_count; i++) {
        struct wear_remark remark = sheet->remarks[i];

        for (j = i; j > 0 && sheet->remarks[j - 1].kind > remark.kind; j--)
            sheet->remarks[j] = sheet->remarks[j - 1];
        sheet->remarks[j] = remark;
    }
}

/* Says on standard error what the sheet says before the pumps: what could not be read always, the rest if no text is printed. */
static bool complain_of(const struct wear_sheet *sheet, bool text_follows)
{
    bool all_read = true;
    size_t i;

    for (i = 0; i < sheet->remark_count; i++) {
        const struct wear_remark *remark = &sheet->remarks[i];

        all_read = all_read && remark->kind != WEAR_UNREAD;
        if (text_follows && remark->kind != WEAR_UNREAD)
            continue;
        if (remark->image && remark->pump != WEAR_NO_PUMP)
            command_say("%s: pump %u: %s", remark->image, remark->pump, remark->text);
        else
            command_say("%s%s%s", remark->image ? remark->image : "", remark->image ? ": " : "", remark->text);
    }
    return all_read;
}

static bool write_file(const struct wear_sheet *sheet, const char *path, const char *mark,
                       void (*write)(const struct wear_sheet *, FILE *))
{
    struct page_file page;

    if (!page_create(&page, path, mark)) {
        command_say("%s: cannot be created: %s", path, page.why);
        return false;
    }
    write(sheet, page.file);
    if (!page_finish(&page)) {
        command_say("%s: cannot be written: %s", path, page.why);
        return false;
    }
    return true;
}

static bool write_sheet(const struct wear_sheet *sheet, const struct wear_options *options)
{
    bool done = true;

    if (options->html)
        done = write_file(sheet, options->html, WEAR_PAGE_MARK, wear_page);
    if (options->csv)
        done = write_file(sheet, options->csv, WEAR_CSV_MARK, wear_csv) && done;
    if (options->print_csv)
        wear_csv(sheet, stdout);
    else if (!options->html && !options->csv)
        wear_text(sheet, stdout);
    return command_end(STATUS_DONE) == STATUS_DONE && done;
}

/* The stations that were asked for. */
static size_t count_stations(const struct wear_sheet *sheet)
{
    size_t count = 0, i;

    for (i = 0; i < sheet->station_count; i++)
        count += !sheet->stations[i].doubled;
    return count;
}

static struct wear_sheet new_sheet(const struct wear_options *options)
{
    struct wear_sheet sheet;
    size_t i;

    memset(&sheet, 0, sizeof sheet);
    sheet.interval = 3600 * options->hours;
    sheet.day = options->day;
    sheet.last_day = -1;
    sheet.station_count = options->count;
    sheet.stations = (struct wear_station *)calloc(options->count, sizeof *sheet.stations);
    sheet.rows = (struct wear_row *)calloc(KAGUTIN_PUMPS * options->count + 1, sizeof *sheet.rows);
    if (!sheet.stations || !sheet.rows)
        command_quit(STATUS_TROUBLE, "out of memory");
    for (i = 0; i < options->count; i++)
        sheet.stations[i].path = options->images[i];
    return sheet;
}

static void free_sheet(struct wear_sheet *sheet)
{
    size_t i;

    for (i = 0; i < sheet->remark_count; i++) {
        free(sheet->remarks[i].image);
        free(sheet->remarks[i].text);
    }
    free(sheet->remarks);
    free(sheet->stations);
    free(sheet->rows);
}

int wear_main(int count, char **words)
{
    struct wear_options options = wear_read_options(count, words);
    struct wear_sheet sheet = new_sheet(&options);
    bool done;

    wear_read_images(&sheet, &options);
    sheet.asked_count = count_stations(&sheet);
    if (options.since)
        wear_compare(&sheet, options.since);
    wear_services(&sheet, options.done);
    wear_order(&sheet, options.all);
    sort_remarks(&sheet);
    done = complain_of(&sheet, !options.html && !options.csv && !options.print_csv);
    if (sheet.read_count)
        done = write_sheet(&sheet, &options) && done;
    free_sheet(&sheet);
    free(options.now);
    return done ? STATUS_DONE : STATUS_TROUBLE;
}
