/* Any bytes as each of the texts that people write; the first byte chooses which. What a reader takes keeps its promises. */
#include <stdlib.h>
#include <string.h>

#include "bands/table.h"
#include "carry/blocks.h"
#include "common/csv.h"
#include "fuzz_file.h"
#include "gauges/readings.h"
#include "rights/list_file.h"

static void read_table(const char *path)
{
    struct table table;

    if (!table_read(&table, path))
        return;
    if (table.count > KAGUTIN_MAX_BANDS + 1)
        abort();
    table_explain(&table, KAGUTIN_BAD_BANDS, 0);
    table_explain(&table, KAGUTIN_BAND_GAP, 9999);
    table_explain(&table, KAGUTIN_BAND_OVERLAP, 0);
}

static void read_list(const char *path)
{
    struct list_file file;
    uint64_t writer;

    if (!list_file_read(&file, path))
        return;
    for (writer = 0; writer < KAGUTIN_WRITERS; writer++)
        kgt_rights_may_store(&file.list, writer, 65534);
}

/* Rows rise, and a day has at most 1,440. */
static void read_levels(const char *path)
{
    static struct readings readings;
    struct readings_file file;
    char trouble[512];
    int64_t day = -1;
    size_t i, total = 0;

    if (!readings_load(&file, path, trouble, sizeof trouble))
        return;
    while (readings_next_day(&file, day, &day)) {
        readings_of_day(&file, day, &readings);
        for (i = 1; i < readings.count; i++)
            if (readings.minute[i] <= readings.minute[i - 1])
                abort();
        total += readings.count;
    }
    if (total != file.count || total == 0)
        abort();
    readings_free(&file);
}

static void read_blocks(const char *path)
{
    struct blocks blocks;

    if (!blocks_read(&blocks, path))
        return;
    if (blocks.count > MOST_HOMES)
        abort();
    blocks_free(&blocks);
}

static void read_csv(const char *path)
{
    static struct csv csv;

    if (!csv_open(&csv, path))
        return;
    while (csv_read(&csv) == CSV_ROW)
        if (csv.count > CSV_FIELDS || csv.count == 0)
            abort();
    csv_close(&csv);
}

int LLVMFuzzerTestOneInput(const uint8_t *data, size_t size);

int LLVMFuzzerTestOneInput(const uint8_t *data, size_t size)
{
    static void (*const readers[])(const char *path) = {read_table, read_list, read_levels, read_blocks, read_csv};

    if (size == 0)
        return 0;
    readers[data[0] % 5](fuzz_file(data + 1, size - 1));
    return 0;
}
