/*
 * Berkeley DB's transactional store with its durable defaults: key the home, value the block, a B-tree. A checkpoint follows every
 * 512 KiB of log, as much as Kagutin's ring has; logs that are no longer needed are removed.
 */
#define _DEFAULT_SOURCE /* db.h needs u_int */
#include <sys/types.h>

#include <db.h>
#include <string.h>

#include "workload.h"

enum { CHECKPOINT_KIB = 512, CACHE = 64 << 20 };

static DB_ENV *environment;
static DB *database;
static u_int32_t checkpoint_kib = CHECKPOINT_KIB;

static void done(const char *call, int code)
{
    if (code != 0)
        fail("berkeley: %s: %s", call, db_strerror(code));
}

/* Recovery is what an application asks for at every start; its regions are of this process alone. */
static void open_environment(const char *folder)
{
    checkpoint_kib = CHECKPOINT_KIB;
    done("db_env_create", db_env_create(&environment, 0));
    done("set_cachesize", environment->set_cachesize(environment, 0, CACHE, 1));
    done("log_set_config", environment->log_set_config(environment, DB_LOG_AUTO_REMOVE, 1));
    done("open", environment->open(environment, folder,
                                   DB_CREATE | DB_INIT_TXN | DB_INIT_LOG | DB_INIT_LOCK | DB_INIT_MPOOL | DB_RECOVER | DB_PRIVATE, 0600));
    done("db_create", db_create(&database, environment, 0));
    done("DB->open", database->open(database, NULL, "homes", NULL, DB_BTREE, DB_CREATE | DB_AUTO_COMMIT, 0600));
}

static void close_environment(void)
{
    done("DB->close", database->close(database, 0));
    done("close", environment->close(environment, 0));
}

static void set_parts(DBT *key, DBT *value, const unsigned *home, const uint8_t *block)
{
    memset(key, 0, sizeof *key);
    memset(value, 0, sizeof *value);
    key->data = (void *)(uintptr_t)home;
    key->size = sizeof *home;
    value->data = (void *)(uintptr_t)block;
    value->size = BLOCK_SIZE;
}

static DB_TXN *begin_with(const struct write *writes, size_t count)
{
    DB_TXN *transaction;
    size_t i;

    done("txn_begin", environment->txn_begin(environment, NULL, &transaction, 0));
    for (i = 0; i < count; i++) {
        DBT key, value;

        set_parts(&key, &value, &writes[i].home, writes[i].block);
        done("put", database->put(database, transaction, &key, &value, 0));
    }
    return transaction;
}

static void commit(const struct write *writes, size_t count)
{
    DB_TXN *transaction = begin_with(writes, count);

    done("commit", transaction->commit(transaction, 0));
    if (checkpoint_kib)
        done("txn_checkpoint", environment->txn_checkpoint(environment, checkpoint_kib, 0, 0));
}

static void keep_log(void)
{
    done("txn_checkpoint", environment->txn_checkpoint(environment, 0, 0, DB_FORCE));
    checkpoint_kib = 0;
}

/* What it has logged is in the file, and its pages too. */
static void cut_short(const struct write *writes, size_t count, void (*cut)(void))
{
    DB_TXN *transaction = begin_with(writes, count);

    done("log_flush", environment->log_flush(environment, NULL));
    cut();
    done("abort", transaction->abort(transaction));
}

static void read_home(unsigned home, uint8_t *block)
{
    DBT key, value;

    set_parts(&key, &value, &home, NULL);
    value.size = 0;
    done("get", database->get(database, NULL, &key, &value, 0));
    if (value.size != BLOCK_SIZE)
        fail("berkeley: home %u has %lu bytes", home, (unsigned long)value.size);
    memcpy(block, value.data, BLOCK_SIZE);
}

int main(int argc, char **argv)
{
    static const struct store stores[] = {
        {"berkeley", 2048, open_environment, open_environment, close_environment, commit, NULL, read_home,
         bytes_by_write_calls, keep_log, cut_short},
    };

    return measure_stores(argc, argv, stores, sizeof stores / sizeof *stores);
}
