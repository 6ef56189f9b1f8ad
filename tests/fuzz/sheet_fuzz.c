/*
 * Any bytes as services done, or as a last sheet; the first byte chooses. A file
 * is refused with a message, or the sheet keeps its promises: services times
 * interval and what is left over are what is worn, and rows fall in their order.
 */
#include <setjmp.h>
#include <stdio.h>
#include <stdlib.h>
#include <string.h>

#include "common/command.h"
#include "fuzz_file.h"
#include "wear/sheet.h"

enum { STATIONS = 2, ROWS = 4 };

static jmp_buf given_up;

/* The program's way to end, back into the fuzzer. */
void command_quit(int status, const char *format, ...)
{
    if (status != STATUS_TROUBLE || !*format)
        abort();
    longjmp(given_up, 1);
}

static struct wear_row row(size_t station, unsigned pump, uint64_t starts, uint64_t seconds, bool running)
{
    struct wear_row made;

    memset(&made, 0, sizeof made);
    made.station = station;
    made.pump = pump;
    made.starts = starts;
    made.seconds = seconds;
    made.second = seconds + 1000;
    made.running = running;
    made.counted_to = made.second + 500;
    made.run = running ? 500 : 0;
    made.run_bound = running ? WEAR_AT_LEAST : WEAR_EXACT;
    return made;
}

static void check(const struct wear_sheet *sheet)
{
    size_t i;

    for (i = 0; i < sheet->count; i++) {
        const struct wear_row *one = &sheet->rows[i];

        if (one->services * sheet->interval + one->left != one->worn || one->worn > wear_total(one))
            abort();
        if (i && (one - 1)->services == 0 && one->services > 0)
            abort();
    }
}

static void read_sheet(struct wear_sheet *sheet, const char *path, uint8_t told, FILE *nowhere)
{
    if (told & 1)
        wear_compare(sheet, path);
    wear_services(sheet, told & 1 ? NULL : path);
    wear_order(sheet, told & 2);
    check(sheet);
    wear_text(sheet, nowhere);
    wear_csv(sheet, nowhere);
    wear_page(sheet, nowhere);
}

int LLVMFuzzerTestOneInput(const uint8_t *data, size_t size);

int LLVMFuzzerTestOneInput(const uint8_t *data, size_t size)
{
    static struct wear_sheet sheet;
    static FILE *nowhere;
    struct wear_station stations[STATIONS] = {{"2026/north.img", true, false, false, 1, 1, 1, 0, false},
                                              {"2026/depot.img", true, false, false, 1, 2, 2, 0, false}};
    struct wear_row rows[ROWS] = {row(0, 0, 791, 17509576, false), row(0, 3, 61, 1333033, true), row(1, 0, 129, 2591223, false),
                                  row(1, 1, 0, 0, false)};
    size_t i;

    if (!nowhere)
        nowhere = fopen("/dev/null", "w");
    if (size == 0 || !nowhere)
        return 0;
    memset(&sheet, 0, sizeof sheet);
    sheet.rows = rows;
    sheet.count = ROWS;
    sheet.stations = stations;
    sheet.station_count = sheet.asked_count = sheet.read_count = STATIONS;
    sheet.interval = 500 * 3600;
    sheet.day = 20774;
    sheet.last_day = -1;
    if (setjmp(given_up) == 0)
        read_sheet(&sheet, fuzz_file(data + 1, size - 1), data[0], nowhere);
    for (i = 0; i < sheet.remark_count; i++) {
        free(sheet.remarks[i].image);
        free(sheet.remarks[i].text);
    }
    free(sheet.remarks);
    return 0;
}
