/*
 * PMDK's libpmemobj: an array of blocks in the root object, each write an
 * undo snapshot of the block and a copy over it. PMEM_IS_PMEM_FORCE=1 in the
 * environment makes the library flush cache lines; without it, a file that is
 * no persistent memory is synced by msync.
 */
#include <errno.h>
#include <libpmemobj.h>
#include <stdio.h>
#include <stdlib.h>
#include <string.h>

#include "workload.h"

static PMEMobjpool *pool;
static uint8_t *array;

#ifdef COUNT_BYTES
uint64_t flushed_bytes(void);
#define BYTES flushed_bytes
#else
#define BYTES NULL
#endif

static void pool_path(char *path, size_t size, const char *folder)
{
    snprintf(path, size, "%s/pool", folder);
}

/* The array begins at a cache line, so that no block lies across two. */
static void find_array(void)
{
    PMEMoid root = pmemobj_root(pool, (HOMES + 1) * BLOCK_SIZE);
    uintptr_t address = (uintptr_t)pmemobj_direct(root);

    if (OID_IS_NULL(root))
        fail("pmemobj: no root object: %s", pmemobj_errormsg());
    array = (uint8_t *)((address + BLOCK_SIZE - 1) / BLOCK_SIZE * BLOCK_SIZE);
}

static void create_pool(const char *folder)
{
    char path[4096];

    pool_path(path, sizeof path, folder);
    pool = pmemobj_create(path, "blocks", (size_t)32 << 20, 0600);
    if (!pool)
        fail("pmemobj: %s", pmemobj_errormsg());
    find_array();
}

static void open_pool(const char *folder)
{
    char path[4096];

    pool_path(path, sizeof path, folder);
    pool = pmemobj_open(path, "blocks");
    if (!pool)
        fail("pmemobj: %s", pmemobj_errormsg());
    find_array();
}

static void close_pool(void)
{
    pmemobj_close(pool);
}

/* Within a transaction: each old block goes to the undo log first. */
static void write_blocks(const struct write *writes, size_t count)
{
    size_t i;

    for (i = 0; i < count; i++) {
        uint8_t *home = array + (size_t)writes[i].home * BLOCK_SIZE;

        pmemobj_tx_add_range_direct(home, BLOCK_SIZE);
        memcpy(home, writes[i].block, BLOCK_SIZE);
    }
}

static void commit(const struct write *writes, size_t count)
{
    TX_BEGIN(pool) {
        write_blocks(writes, count);
    } TX_ONABORT {
        fail("pmemobj: transaction aborted: %s", pmemobj_errormsg());
    } TX_END
}

/* The new blocks are in place and the old ones in the undo log. */
static void cut_short(const struct write *writes, size_t count, void (*cut)(void))
{
    TX_BEGIN(pool) {
        write_blocks(writes, count);
        cut();
        pmemobj_tx_abort(ECANCELED);
    } TX_ONCOMMIT {
        fail("pmemobj: the transaction was not undone");
    } TX_END
}

static void read_home(unsigned home, uint8_t *block)
{
    memcpy(block, array + (size_t)home * BLOCK_SIZE, BLOCK_SIZE);
}

int main(int argc, char **argv)
{
    const char *force = getenv("PMEM_IS_PMEM_FORCE");
    struct store store = {"pmemobj", 2048, create_pool, open_pool, close_pool, commit, NULL, read_home, BYTES, NULL,
                          cut_short};

    if (!force || strcmp(force, "1") != 0)
        store.name = "pmemobj-msync";
    return measure_stores(argc, argv, &store, 1);
}
