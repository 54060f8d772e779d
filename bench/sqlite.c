/*
 * Durable writes by SQLite: a transaction with one row of 512 bytes each, with a write-ahead log and synchronous=FULL.
 *
 *     sqlite FILE TURNS
 *
 * prints the seconds. Debian package: libsqlite3-dev.
 */
#define _GNU_SOURCE
#include <sqlite3.h>
#include <stdio.h>
#include <stdlib.h>
#include <string.h>
#include <time.h>

static void must(int code, int wanted, sqlite3 *db)
{
    if (code != wanted) {
        fprintf(stderr, "sqlite: %s\n", sqlite3_errmsg(db));
        exit(1);
    }
}

int main(int argc, char **argv)
{
    if (argc != 3)
        return 2;
    long turns = atol(argv[2]);
    sqlite3 *db;
    sqlite3_stmt *put;
    char block[512];
    must(sqlite3_open(argv[1], &db), SQLITE_OK, db);
    must(sqlite3_exec(db, "pragma journal_mode=wal; pragma synchronous=full; create table b(n integer primary key, d blob);", 0, 0, 0), SQLITE_OK, db);
    must(sqlite3_prepare_v2(db, "insert or replace into b values (?, ?)", -1, &put, 0), SQLITE_OK, db);
    unsigned long drawn = 1;
    struct timespec from, to;
    clock_gettime(CLOCK_MONOTONIC, &from);
    for (long turn = 0; turn < turns; turn++) {
        drawn = drawn * 6364136223846793005UL + 1442695040888963407UL;
        memset(block, (int)turn, sizeof block);
        sqlite3_bind_int64(put, 1, (long)((drawn >> 33) % 131072));
        sqlite3_bind_blob(put, 2, block, sizeof block, SQLITE_STATIC);
        must(sqlite3_step(put), SQLITE_DONE, db);
        sqlite3_reset(put);
    }
    clock_gettime(CLOCK_MONOTONIC, &to);
    printf("%.6f\n", to.tv_sec - from.tv_sec + (to.tv_nsec - from.tv_nsec) / 1e9);
    return 0;
}
