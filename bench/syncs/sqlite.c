/* SQLite: each thread has a connection to one database with a write-ahead log, and inserts items, each in a transaction of its own
 * that is synced. */
#include "writers.h"

#include <sqlite3.h>

enum { BUSY_MS = 600000 };

static sqlite3 *connect_to(const char *folder)
{
    char path[4096];
    sqlite3 *db;

    snprintf(path, sizeof path, "%s/sqlite.db", folder);
    check(sqlite3_open(path, &db) == SQLITE_OK && sqlite3_busy_timeout(db, BUSY_MS) == SQLITE_OK, "an open");
    check(sqlite3_exec(db, "PRAGMA journal_mode=WAL; PRAGMA synchronous=FULL", NULL, NULL, NULL) == SQLITE_OK, "a pragma");
    return db;
}

static void *write_items(void *part)
{
    struct writer *own = part;
    sqlite3 *db = connect_to(own->folder);
    sqlite3_stmt *insert;
    char item[ITEM_BYTES];

    check(sqlite3_prepare_v2(db, "INSERT INTO log(item) VALUES(?)", -1, &insert, NULL) == SQLITE_OK, "a statement");
    for (long number = 0; number < own->items; number++) {
        make_item(item, number);
        sqlite3_bind_blob(insert, 1, item, ITEM_BYTES, SQLITE_STATIC);
        check(sqlite3_step(insert) == SQLITE_DONE, "an insert");
        sqlite3_reset(insert);
    }
    sqlite3_finalize(insert);
    sqlite3_close(db);
    return NULL;
}

int main(int count, char **words)
{
    sqlite3 *db;

    check(count == 4, "the words");
    db = connect_to(words[1]);
    check(sqlite3_exec(db, "CREATE TABLE log(id INTEGER PRIMARY KEY, item BLOB)", NULL, NULL, NULL) == SQLITE_OK, "the table");
    time_writers("sqlite", words, write_items);
    sqlite3_close(db);
    return 0;
}
