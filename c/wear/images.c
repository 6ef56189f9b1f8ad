/* The pumps of the images, and what could not be read of them. */
#include <inttypes.h>
#include <string.h>
#include <sys/stat.h>

#include "common/records.h"
#include "common/work.h"
#include "kagutin_hours.h"
#include "sheet.h"

/* Who reads the pumps of a station, and whom they are hidden from. */
struct reader {
    struct kgt_rights list;
    uint64_t asked;  /* WEAR_ANY_WRITER: whoever has the right */
    uint64_t able;   /* hidden from the writer that was asked for: the lowest that has the right, or KAGUTIN_WRITERS */
    unsigned hidden; /* pumps that could not be read for want of a right */
};

/* The writer that reads a pump; KAGUTIN_WRITERS if none may. */
static uint64_t reader_of(struct reader *reader, unsigned pump)
{
    uint64_t able = work_reader(&reader->list, KAGUTIN_PUMP_HOME + pump, 1);

    if (reader->asked == WEAR_ANY_WRITER)
        return able;
    if (work_may_read(&reader->list, reader->asked, KAGUTIN_PUMP_HOME + pump, 1))
        return reader->asked;
    if (reader->able == KAGUTIN_WRITERS)
        reader->able = able;
    return KAGUTIN_WRITERS;
}

/* One pump into the sheet. A home that holds none of its records would show as hours. */
static void read_pump(struct wear_sheet *sheet, struct copy *copy, struct reader *reader, size_t station, unsigned pump)
{
    uint64_t writer = reader_of(reader, pump), code;
    struct wear_row *row = &sheet->rows[sheet->count];
    uint8_t block[KAGUTIN_BLOCK_SIZE] = {0};
    struct pump_record record;
    const char *path = sheet->stations[station].path, *why;

    if (writer == KAGUTIN_WRITERS) {
        reader->hidden++;
        return;
    }
    code = kgt_read(&copy->store, writer, KAGUTIN_PUMP_HOME + pump, block).code;
    if (code != KAGUTIN_DONE) {
        wear_remark(sheet, WEAR_UNREAD, path, pump, "%s", kgt_answer_text(code));
        return;
    }
    why = record_pump(block, &record);
    if (why) {
        wear_remark(sheet, WEAR_UNREAD, path, pump, "home %u holds no record of pump %u: %s", KAGUTIN_PUMP_HOME + pump, pump,
                    why);
        return;
    }
    row->station = station;
    row->pump = pump;
    row->starts = record.starts;
    row->seconds = record.seconds;
    row->second = record.second;
    row->running = record.running;
    sheet->count++;
}

/* Says of whom the pumps are hidden, and who may read them. */
static void tell_hidden(struct wear_sheet *sheet, const char *path, const struct reader *reader, unsigned pumps)
{
    const char *which = reader->hidden == pumps ? "the" : "some";

    if (reader->hidden == 0)
        return;
    if (reader->asked == WEAR_ANY_WRITER)
        wear_remark(sheet, WEAR_UNREAD, path, WEAR_NO_PUMP,
                    "no writer has the right to read %s pumps' homes; 'kagutin rights set' can give it", which);
    else if (reader->able == KAGUTIN_WRITERS)
        wear_remark(sheet, WEAR_UNREAD, path, WEAR_NO_PUMP, "writer %u has no right to read %s pumps' homes, and nobody has",
                    (unsigned)reader->asked, which);
    else
        wear_remark(sheet, WEAR_UNREAD, path, WEAR_NO_PUMP, "writer %u has no right to read %s pumps' homes; writer %u has",
                    (unsigned)reader->asked, which, (unsigned)reader->able);
}

static uint64_t digest_of(const struct copy *copy)
{
    uint64_t digest = UINT64_C(14695981039346656037);
    size_t size = KGT_LOG_SIZE(copy->groups) + KGT_HOMES_SIZE(copy->homes), i;

    for (i = 0; i < size; i++)
        digest = (digest ^ copy->image[i]) * UINT64_C(1099511628211);
    return digest;
}

/* Tells of an image that was read already under another name: a station may stand in the sheet twice. */
static void tell_copies(struct wear_sheet *sheet, size_t station, size_t first_row)
{
    bool started = false;
    size_t i;

    for (i = first_row; i < sheet->count; i++)
        started = started || sheet->rows[i].starts > 0;
    for (i = 0; started && i < station; i++)
        if (sheet->stations[i].read && sheet->stations[i].digest == sheet->stations[station].digest) {
            wear_remark(sheet, WEAR_NOTE, sheet->stations[station].path, WEAR_NO_PUMP,
                        "holds the same bytes as %s; both are in the sheet", sheet->stations[i].path);
            return;
        }
}

static void read_pumps(struct wear_sheet *sheet, struct copy *copy, const struct wear_options *options, size_t index)
{
    struct wear_station *station = &sheet->stations[index];
    size_t first_row = sheet->count;
    struct reader reader;
    unsigned pump;

    memset(&reader, 0, sizeof reader);
    kgt_get_rights(&copy->store, 0, &reader.list);
    reader.asked = options->writer;
    reader.able = KAGUTIN_WRITERS;
    for (pump = 0; pump < KAGUTIN_PUMPS && KAGUTIN_PUMP_HOME + pump < copy->homes; pump++)
        read_pump(sheet, copy, &reader, index, pump);
    tell_hidden(sheet, station->path, &reader, pump);
    station->unread = reader.hidden > 0;
    station->read = sheet->count > first_row;
    station->digest = digest_of(copy);
    sheet->read_count += station->read;
    tell_copies(sheet, index, first_row);
}

/* Whether the same file was given before. */
static bool is_given_twice(struct wear_sheet *sheet, size_t index)
{
    struct wear_station *station = &sheet->stations[index];
    struct stat status;
    size_t i;

    if (stat(station->path, &status) != 0)
        return false;
    station->device = (uint64_t)status.st_dev;
    station->number = (uint64_t)status.st_ino;
    for (i = 0; i < index; i++) {
        const struct wear_station *before = &sheet->stations[i];

        if (before->number == station->number && before->device == station->device && before->number) {
            station->doubled = true;
            if (strcmp(before->path, station->path) == 0)
                wear_remark(sheet, WEAR_NOTE, station->path, WEAR_NO_PUMP, "given twice; it counts once");
            else
                wear_remark(sheet, WEAR_NOTE, station->path, WEAR_NO_PUMP, "the same file as %s; it counts once, as that",
                            before->path);
            return true;
        }
    }
    return false;
}

static void read_image(struct wear_sheet *sheet, const struct wear_options *options, size_t index)
{
    struct wear_station *station = &sheet->stations[index];
    size_t length = strlen(station->path);
    struct copy copy;

    if (is_given_twice(sheet, index))
        return;
    if (!copy_open(&copy, station->path, options->base)) {
        bool named = strncmp(copy.message, station->path, length) == 0 && strncmp(copy.message + length, ": ", 2) == 0;

        station->unread = true;
        wear_remark(sheet, WEAR_UNREAD, station->path, WEAR_NO_PUMP, "%s", copy.message + (named ? length + 2 : 0));
        return;
    }
    if (copy.homes > KAGUTIN_PUMP_HOME) {
        read_pumps(sheet, &copy, options, index);
    } else {
        station->unread = true;
        wear_remark(sheet, WEAR_UNREAD, station->path, WEAR_NO_PUMP, "pumps take homes from 16 on; the image has %lu homes",
                    (unsigned long)copy.homes);
    }
    copy_close(&copy);
}

/* The second that was given for the station: the one that names it most closely, or the one for all. */
static const struct wear_now *now_of(const struct wear_options *options, const char *path)
{
    const struct wear_now *found = NULL;
    int closest = WEAR_NO_MATCH;
    size_t i;

    for (i = 0; i < options->now_count; i++) {
        const char *name = options->now[i].station;
        int match = name ? wear_match(path, name) : WEAR_NO_MATCH;

        if (match < closest || (!name && closest == WEAR_NO_MATCH)) {
            found = &options->now[i];
            closest = match;
        }
    }
    return found;
}

/*
 * Counts the runs that go on. Without a now, up to the last event of the station's pumps, which its clock has reached;
 * the run is longer by what the image does not tell.
 */
static void count_runs(struct wear_sheet *sheet, const struct wear_options *options, size_t station)
{
    const struct wear_now *now = now_of(options, sheet->stations[station].path);
    uint64_t latest = 0;
    size_t i;

    for (i = 0; i < sheet->count; i++)
        if (sheet->rows[i].station == station && sheet->rows[i].second > latest)
            latest = sheet->rows[i].second;
    if (now && now->second < latest) {
        wear_remark(sheet, WEAR_NOTE, sheet->stations[station].path, WEAR_NO_PUMP,
                    "--now %" PRIu64 " lies before its last event, at second %" PRIu64
                    "; pumps that run are counted up to that event only",
                    now->second, latest);
        now = NULL;
    }
    for (i = 0; i < sheet->count; i++) {
        struct wear_row *row = &sheet->rows[i];

        if (row->station != station || !row->running)
            continue;
        row->counted_to = now ? now->second : latest;
        row->run = row->counted_to - row->second;
        row->run_bound = now ? WEAR_EXACT : WEAR_AT_LEAST;
    }
}

void wear_read_images(struct wear_sheet *sheet, const struct wear_options *options)
{
    size_t i;

    for (i = 0; i < sheet->station_count; i++) {
        read_image(sheet, options, i);
        if (sheet->stations[i].read)
            count_runs(sheet, options, i);
    }
}
