/*
 * LMDB with its durable defaults: key the home, value the block. Pages are
 * copied and written by calls, or through the mapping with MDB_WRITEMAP: then
 * a program of its own, built with COUNT_PAGES, compares the file with what it
 * was before each commit and counts the pages that changed.
 */
#include <fcntl.h>
#include <lmdb.h>
#include <stdio.h>
#include <string.h>
#include <unistd.h>

#include "workload.h"

static MDB_env *environment;
static MDB_dbi table;
static unsigned flags;

static void done(const char *call, int code)
{
    if (code != MDB_SUCCESS)
        fail("lmdb: %s: %s", call, mdb_strerror(code));
}

#ifdef COUNT_PAGES
enum { PAGE = 4096, MOST_PAGES = 4096 };

static uint8_t before[MOST_PAGES][PAGE];
static uint64_t changed;
static int file;

static uint64_t changed_bytes(void)
{
    return changed;
}

/* Goes over the pages in use; those that are new or differ from the last time count. */
static void count_pages(void)
{
    uint8_t page[PAGE];
    MDB_envinfo info;
    size_t i;

    done("mdb_env_info", mdb_env_info(environment, &info));
    if (info.me_last_pgno >= MOST_PAGES)
        fail("lmdb: the file is too long to be compared");
    for (i = 0; i <= info.me_last_pgno; i++) {
        if (pread(file, page, PAGE, (off_t)i * PAGE) != PAGE)
            fail("lmdb: the file cannot be read");
        if (memcmp(page, before[i], PAGE) == 0)
            continue;
        memcpy(before[i], page, PAGE);
        changed += PAGE;
    }
}

static void open_file(const char *folder)
{
    char path[4096];

    snprintf(path, sizeof path, "%s/data.mdb", folder);
    file = open(path, O_RDONLY);
    if (file < 0)
        fail("%s cannot be opened", path);
    count_pages();
    changed = 0;
}
#define WRITEMAP_BYTES changed_bytes
#else
#define WRITEMAP_BYTES NULL
#endif

static void open_environment(const char *folder)
{
    MDB_txn *transaction;

    done("mdb_env_create", mdb_env_create(&environment));
    done("mdb_env_set_mapsize", mdb_env_set_mapsize(environment, (size_t)64 << 20));
    done("mdb_env_open", mdb_env_open(environment, folder, flags, 0600));
    done("mdb_txn_begin", mdb_txn_begin(environment, NULL, 0, &transaction));
    done("mdb_dbi_open", mdb_dbi_open(transaction, NULL, MDB_INTEGERKEY | MDB_CREATE, &table));
    done("mdb_txn_commit", mdb_txn_commit(transaction));
#ifdef COUNT_PAGES
    open_file(folder);
#endif
}

#ifndef COUNT_PAGES
static void create_plain(const char *folder)
{
    flags = 0;
    open_environment(folder);
}
#endif

static void create_writemap(const char *folder)
{
    flags = MDB_WRITEMAP;
    open_environment(folder);
}

static void close_environment(void)
{
    mdb_env_close(environment);
#ifdef COUNT_PAGES
    close(file);
#endif
}

static MDB_txn *begin_with(const struct write *writes, size_t count)
{
    MDB_txn *transaction;
    size_t i;

    done("mdb_txn_begin", mdb_txn_begin(environment, NULL, 0, &transaction));
    for (i = 0; i < count; i++) {
        unsigned home = writes[i].home;
        MDB_val key = {sizeof home, &home}, value = {BLOCK_SIZE, (void *)(uintptr_t)writes[i].block};

        done("mdb_put", mdb_put(transaction, table, &key, &value, 0));
    }
    return transaction;
}

static void commit(const struct write *writes, size_t count)
{
    done("mdb_txn_commit", mdb_txn_commit(begin_with(writes, count)));
#ifdef COUNT_PAGES
    count_pages();
#endif
}

/* Its pages, if they are in the file at all, are free ones. */
static void cut_short(const struct write *writes, size_t count, void (*cut)(void))
{
    MDB_txn *transaction = begin_with(writes, count);

    cut();
    mdb_txn_abort(transaction);
}

static void read_home(unsigned home, uint8_t *block)
{
    MDB_txn *transaction;
    MDB_val key = {sizeof home, &home}, value;

    done("mdb_txn_begin", mdb_txn_begin(environment, NULL, MDB_RDONLY, &transaction));
    done("mdb_get", mdb_get(transaction, table, &key, &value));
    if (value.mv_size != BLOCK_SIZE)
        fail("lmdb: home %u has %lu bytes", home, (unsigned long)value.mv_size);
    memcpy(block, value.mv_data, BLOCK_SIZE);
    mdb_txn_abort(transaction);
}

int main(int argc, char **argv)
{
    static const struct store stores[] = {
#ifndef COUNT_PAGES
        {"lmdb", 2048, create_plain, open_environment, close_environment, commit, NULL, read_home,
         bytes_by_write_calls, NULL, cut_short},
#endif
        {"lmdb-writemap", 2048, create_writemap, open_environment, close_environment, commit, NULL, read_home,
         WRITEMAP_BYTES, NULL, cut_short},
    };

    return measure_stores(argc, argv, stores, sizeof stores / sizeof *stores);
}
