/*
 * RocksDB, every write synced: key the home, value the block. With its defaults, whose write buffer of 64 MiB no run fills, and
 * with one of 512 KiB, as much as Kagutin's ring has, so that buffers are written to tables and these merged in the run.
 */
#include <rocksdb/c.h>
#include <string.h>

#include "workload.h"

enum { SMALL_BUFFER = 512 << 10 };

static rocksdb_t *database;
static rocksdb_options_t *options;
static rocksdb_writeoptions_t *synced;
static rocksdb_readoptions_t *reading;
static size_t buffer;

static void done(const char *call, const char *error)
{
    if (error)
        fail("rocksdb: %s: %s", call, error);
}

static void open_database(const char *folder)
{
    char *error = NULL;

    options = rocksdb_options_create();
    rocksdb_options_set_create_if_missing(options, 1);
    if (buffer)
        rocksdb_options_set_write_buffer_size(options, buffer);
    synced = rocksdb_writeoptions_create();
    rocksdb_writeoptions_set_sync(synced, 1);
    reading = rocksdb_readoptions_create();
    database = rocksdb_open(options, folder, &error);
    done("open", error);
}

static void create_plain(const char *folder)
{
    buffer = 0;
    open_database(folder);
}

static void create_small(const char *folder)
{
    buffer = SMALL_BUFFER;
    open_database(folder);
}

static void close_database(void)
{
    rocksdb_close(database);
    rocksdb_readoptions_destroy(reading);
    rocksdb_writeoptions_destroy(synced);
    rocksdb_options_destroy(options);
}

static rocksdb_writebatch_t *batch_of(const struct write *writes, size_t count)
{
    rocksdb_writebatch_t *batch = rocksdb_writebatch_create();
    size_t i;

    for (i = 0; i < count; i++)
        rocksdb_writebatch_put(batch, (const char *)&writes[i].home, sizeof writes[i].home, (const char *)writes[i].block, BLOCK_SIZE);
    return batch;
}

static void commit(const struct write *writes, size_t count)
{
    rocksdb_writebatch_t *batch = batch_of(writes, count);
    char *error = NULL;

    rocksdb_write(database, synced, batch, &error);
    done("write", error);
    rocksdb_writebatch_destroy(batch);
}

/* The write buffer goes to a table and the log begins anew; from here on it is kept, as long as the buffer lasts. */
static void keep_log(void)
{
    rocksdb_flushoptions_t *flush = rocksdb_flushoptions_create();
    char *error = NULL;

    rocksdb_flush(database, flush, &error);
    done("flush", error);
    rocksdb_flushoptions_destroy(flush);
}

/* A batch is in memory until it is written. */
static void cut_short(const struct write *writes, size_t count, void (*cut)(void))
{
    rocksdb_writebatch_t *batch = batch_of(writes, count);

    cut();
    rocksdb_writebatch_destroy(batch);
}

static void read_home(unsigned home, uint8_t *block)
{
    char *error = NULL;
    rocksdb_pinnableslice_t *found = rocksdb_get_pinned(database, reading, (const char *)&home, sizeof home, &error);
    const char *value;
    size_t size;

    done("get", error);
    value = rocksdb_pinnableslice_value(found, &size);
    if (!value || size != BLOCK_SIZE)
        fail("rocksdb: home %u has %lu bytes", home, (unsigned long)size);
    memcpy(block, value, BLOCK_SIZE);
    rocksdb_pinnableslice_destroy(found);
}

int main(int argc, char **argv)
{
    static const struct store stores[] = {
        {"rocksdb", 2048, create_plain, open_database, close_database, commit, NULL, read_home, bytes_by_write_calls, keep_log,
         cut_short},
        {"rocksdb-small", 2048, create_small, open_database, close_database, commit, NULL, read_home, bytes_by_write_calls, keep_log,
         cut_short},
    };

    return measure_stores(argc, argv, stores, sizeof stores / sizeof *stores);
}
