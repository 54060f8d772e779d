/*
 * Durable writes by LMDB: a transaction with one value of 512 bytes each.
 *
 *     lmdb FILE TURNS
 *
 * prints the seconds. Debian package: liblmdb-dev.
 */
#define _GNU_SOURCE
#include <lmdb.h>
#include <stdio.h>
#include <stdlib.h>
#include <string.h>
#include <time.h>

static void must(int code)
{
    if (code) {
        fprintf(stderr, "lmdb: %s\n", mdb_strerror(code));
        exit(1);
    }
}

int main(int argc, char **argv)
{
    if (argc != 3)
        return 2;
    long turns = atol(argv[2]);
    MDB_env *env;
    MDB_dbi table;
    MDB_txn *txn;
    char block[512];
    must(mdb_env_create(&env));
    must(mdb_env_set_mapsize(env, 1UL << 30));
    must(mdb_env_open(env, argv[1], MDB_NOSUBDIR, 0666));
    unsigned long drawn = 1;
    struct timespec from, to;
    must(mdb_txn_begin(env, NULL, 0, &txn));
    must(mdb_dbi_open(txn, NULL, MDB_INTEGERKEY, &table));
    must(mdb_txn_commit(txn));
    clock_gettime(CLOCK_MONOTONIC, &from);
    for (long turn = 0; turn < turns; turn++) {
        drawn = drawn * 6364136223846793005UL + 1442695040888963407UL;
        unsigned long number = (drawn >> 33) % 131072;
        memset(block, (int)turn, sizeof block);
        MDB_val key = {sizeof number, &number}, value = {sizeof block, block};
        must(mdb_txn_begin(env, NULL, 0, &txn));
        must(mdb_put(txn, table, &key, &value, 0));
        must(mdb_txn_commit(txn));
    }
    clock_gettime(CLOCK_MONOTONIC, &to);
    printf("%.6f\n", to.tv_sec - from.tv_sec + (to.tv_nsec - from.tv_nsec) / 1e9);
    return 0;
}
