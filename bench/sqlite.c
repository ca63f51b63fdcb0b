/* Puts rows into a table of SQLite, each in a transaction of its own.

       sqlite FILE ROWS

   A row has what an entry of a journal has: kind, message, stamp, number and the values. The rollback journal is in
   memory and `synchronous` is full. Printed are the nanoseconds of all rows. */
#include <sqlite3.h>
#include <stdio.h>
#include <stdlib.h>
#include <time.h>

static sqlite3 *db;

static void fail(const char *what) {
    fprintf(stderr, "sqlite: %s: %s\n", what, sqlite3_errmsg(db));
    exit(1);
}

static void run(const char *statement) {
    if (sqlite3_exec(db, statement, NULL, NULL, NULL) != SQLITE_OK) fail(statement);
}

static long long now(void) {
    struct timespec t;
    clock_gettime(CLOCK_MONOTONIC, &t);
    return t.tv_sec * 1000000000LL + t.tv_nsec;
}

int main(int argc, char **argv) {
    if (argc != 3) return 2;
    long long rows = atoll(argv[2]);
    if (sqlite3_open(argv[1], &db) != SQLITE_OK) fail("open");
    run("PRAGMA journal_mode = MEMORY");
    run("PRAGMA synchronous = FULL");
    run("CREATE TABLE entry (place INTEGER PRIMARY KEY, kind INT, message INT, stamp INT, number INT, id INT, x INT, y INT)");
    sqlite3_stmt *put;
    if (sqlite3_prepare_v2(db, "INSERT INTO entry VALUES (?, ?, ?, ?, ?, ?, ?, ?)", -1, &put, NULL) != SQLITE_OK) fail("insert");
    long long begun = now();
    for (long long n = 0; n < rows; n++) {
        int received = n % 2 == 0;
        long long key = n / 2 + 1, row[] = {n, received, !received, n + 1, received ? 0 : n, key, key, received ? 0 : key};
        for (int i = 0; i < 8; i++) sqlite3_bind_int64(put, i + 1, row[i]);
        if (sqlite3_step(put) != SQLITE_DONE) fail("step");
        sqlite3_reset(put);
    }
    printf("%lld\n", now() - begun);
    sqlite3_finalize(put);
    sqlite3_close(db);
    return 0;
}
