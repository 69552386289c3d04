/* Writes leases to an SQLite database, one commit each, as the server does: store FILE COUNT. It prints the number of
   commits and the time they took. The database has a WAL and each commit is synced (synchronous=FULL), so it is as durable
   as the server's store. To build: cc -O2 -o store bench/store.c -lsqlite3 */
#include <sqlite3.h>
#include <stdio.h>
#include <stdlib.h>
#include <time.h>

static void must(int code, int wanted, sqlite3 *db) {
    if (code != wanted) {
        fprintf(stderr, "%s\n", sqlite3_errmsg(db));
        exit(1);
    }
}

static double now(void) {
    struct timespec at;
    clock_gettime(CLOCK_MONOTONIC, &at);
    return (double)at.tv_sec + 1e-9 * (double)at.tv_nsec;
}

int main(int argc, char **argv) {
    sqlite3 *db;
    sqlite3_stmt *put;
    long count = argc > 2 ? atol(argv[2]) : 0;
    unsigned char client[8] = {0, 1};
    if (argc < 3) return 2;
    must(sqlite3_open(argv[1], &db), SQLITE_OK, db);
    must(sqlite3_exec(db, "PRAGMA journal_mode=WAL; PRAGMA synchronous=FULL", 0, 0, 0), SQLITE_OK, db);
    must(sqlite3_exec(db,
        "CREATE TABLE lease (address INTEGER PRIMARY KEY CHECK (address BETWEEN 0 AND 4294967295), client BLOB NOT NULL,"
        " state INTEGER NOT NULL CHECK (state BETWEEN 1 AND 4), changed INTEGER NOT NULL CHECK (changed BETWEEN 0 AND"
        " 1099511627775), ends INTEGER NOT NULL CHECK (ends BETWEEN changed AND changed + 2147483647)) STRICT",
        0, 0, 0), SQLITE_OK, db);
    must(sqlite3_prepare_v2(db,
        "INSERT INTO lease (address, client, state, changed, ends) VALUES (?1, ?2, ?3, ?4, ?5) ON CONFLICT (address) DO"
        " UPDATE SET client = excluded.client, state = excluded.state, changed = excluded.changed, ends = excluded.ends",
        -1, &put, 0), SQLITE_OK, db);
    double begun = now();
    for (long n = 0; n < count; n++) {
        long address = 167772161 + n / 2; /* each address twice: an offer, then a lease */
        client[6] = (unsigned char)(n / 512);
        client[7] = (unsigned char)(n / 2);
        must(sqlite3_bind_int64(put, 1, address), SQLITE_OK, db);
        must(sqlite3_bind_blob(put, 2, client, sizeof client, SQLITE_STATIC), SQLITE_OK, db);
        must(sqlite3_bind_int(put, 3, 1 + (int)(n % 2)), SQLITE_OK, db);
        must(sqlite3_bind_int64(put, 4, 100 + n / 100), SQLITE_OK, db);
        must(sqlite3_bind_int64(put, 5, 7300 + n / 100), SQLITE_OK, db);
        must(sqlite3_step(put), SQLITE_DONE, db);
        must(sqlite3_reset(put), SQLITE_OK, db);
    }
    double took = now() - begun;
    printf("%ld commits in %.3f s: %.1f us each\n", count, took, 1e6 * took / (double)count);
    must(sqlite3_finalize(put), SQLITE_OK, db);
    must(sqlite3_close(db), SQLITE_OK, db);
    return 0;
}
