/*
 * SQLite with synchronous=FULL: a write-ahead log with its usual checkpoints,
 * or a rollback journal that is deleted at each commit.
 */
#include <sqlite3.h>
#include <stdio.h>
#include <string.h>

#include "workload.h"

static sqlite3 *database;
static sqlite3_stmt *begin_statement, *commit_statement, *rollback_statement, *insert, *update, *query;
static const char *journal;

static void expect(const char *what, int code, int wanted)
{
    if (code != wanted)
        fail("sqlite: %s: %s", what, database ? sqlite3_errmsg(database) : sqlite3_errstr(code));
}

static void execute(const char *text)
{
    expect(text, sqlite3_exec(database, text, NULL, NULL, NULL), SQLITE_OK);
}

static sqlite3_stmt *prepare(const char *text)
{
    sqlite3_stmt *statement = NULL;

    expect(text, sqlite3_prepare_v2(database, text, -1, &statement, NULL), SQLITE_OK);
    return statement;
}

/* SQLite answers with the mode that it has taken. */
static void set_journal(void)
{
    char text[64];
    sqlite3_stmt *statement;

    snprintf(text, sizeof text, "PRAGMA journal_mode=%s", journal);
    statement = prepare(text);
    expect(text, sqlite3_step(statement), SQLITE_ROW);
    if (strcmp((const char *)sqlite3_column_text(statement, 0), journal) != 0)
        fail("sqlite: no journal mode %s here", journal);
    sqlite3_finalize(statement);
}

static void open_database(const char *folder)
{
    char path[4096];

    snprintf(path, sizeof path, "%s/database", folder);
    expect(path, sqlite3_open(path, &database), SQLITE_OK);
    set_journal();
    execute("PRAGMA synchronous=FULL");
    execute("CREATE TABLE IF NOT EXISTS homes (home INTEGER PRIMARY KEY, block BLOB NOT NULL)");
    begin_statement = prepare("BEGIN IMMEDIATE");
    commit_statement = prepare("COMMIT");
    rollback_statement = prepare("ROLLBACK");
    insert = prepare("INSERT INTO homes (block, home) VALUES (?1, ?2)");
    update = prepare("UPDATE homes SET block = ?1 WHERE home = ?2");
    query = prepare("SELECT block FROM homes WHERE home = ?1");
}

static void create_wal(const char *folder)
{
    journal = "wal";
    open_database(folder);
}

static void create_rollback(const char *folder)
{
    journal = "delete";
    open_database(folder);
}

static void close_database(void)
{
    sqlite3_finalize(begin_statement);
    sqlite3_finalize(commit_statement);
    sqlite3_finalize(rollback_statement);
    sqlite3_finalize(insert);
    sqlite3_finalize(update);
    sqlite3_finalize(query);
    expect("close", sqlite3_close(database), SQLITE_OK);
}

static void step(sqlite3_stmt *statement)
{
    expect(sqlite3_sql(statement), sqlite3_step(statement), SQLITE_DONE);
    sqlite3_reset(statement);
}

static void write_with(sqlite3_stmt *statement, const struct write *write)
{
    sqlite3_bind_blob(statement, 1, write->block, BLOCK_SIZE, SQLITE_STATIC);
    sqlite3_bind_int(statement, 2, (int)write->home);
    step(statement);
}

/* A home without a row yet, as in the preload, gets one. */
static void begin_with(const struct write *writes, size_t count)
{
    size_t i;

    step(begin_statement);
    for (i = 0; i < count; i++) {
        write_with(update, &writes[i]);
        if (sqlite3_changes(database) == 0)
            write_with(insert, &writes[i]);
    }
}

static void commit(const struct write *writes, size_t count)
{
    begin_with(writes, count);
    step(commit_statement);
}

static void keep_wal(void)
{
    execute("PRAGMA wal_checkpoint(TRUNCATE)");
    execute("PRAGMA wal_autocheckpoint=0");
}

/* With a small cache, changed pages go to the log, or to the database when the old ones are in the journal. */
static void cut_short(const struct write *writes, size_t count, void (*cut)(void))
{
    execute("PRAGMA cache_size=4");
    begin_with(writes, count);
    cut();
    step(rollback_statement);
}

static void read_home(unsigned home, uint8_t *block)
{
    sqlite3_bind_int(query, 1, (int)home);
    expect("SELECT", sqlite3_step(query), SQLITE_ROW);
    if (sqlite3_column_bytes(query, 0) != BLOCK_SIZE)
        fail("sqlite: home %u has %d bytes", home, sqlite3_column_bytes(query, 0));
    memcpy(block, sqlite3_column_blob(query, 0), BLOCK_SIZE);
    sqlite3_reset(query);
}

int main(int argc, char **argv)
{
    static const struct store stores[] = {
        {"sqlite-wal", 2000, create_wal, open_database, close_database, commit, NULL, read_home, bytes_by_write_calls,
         keep_wal, cut_short},
        {"sqlite-rollback", 256, create_rollback, open_database, close_database, commit, NULL, read_home,
         bytes_by_write_calls, NULL, cut_short},
    };

    return measure_stores(argc, argv, stores, sizeof stores / sizeof *stores);
}
