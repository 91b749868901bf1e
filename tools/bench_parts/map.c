/* For `tools/bench trees`: puts the same keys as `bench tree` into SQLite or LMDB, with a commit after each 256, and reads
 * each of them. Prints the microseconds of all puts and of all gets. Compiled with -DSQLITE -lsqlite3 or -DLMDB -llmdb.
 *
 *     map KEYS FILE     FILE may be :memory: for SQLite
 */
#include <stdint.h>
#include <stdio.h>
#include <stdlib.h>
#include <string.h>
#include <time.h>

#define BATCH 256

static void check(int good, const char *what) {
    if (!good) {
        fprintf(stderr, "map: %s failed\n", what);
        exit(1);
    }
}

static uint64_t now(void) {
    struct timespec time;
    clock_gettime(CLOCK_MONOTONIC, &time);
    return (uint64_t)time.tv_sec * 1000000 + (uint64_t)time.tv_nsec / 1000;
}

/* The key with this number: the same bytes as in `bench tree`. */
static void key_of(uint64_t number, unsigned char key[8]) {
    uint64_t mixed = number * UINT64_C(0x9e3779b97f4a7c15);
    for (int place = 0; place < 8; place++)
        key[place] = (unsigned char)(mixed >> (56 - 8 * place));
}

/* The value at that key. */
static void value_of(uint64_t number, unsigned char value[4]) {
    for (int place = 0; place < 4; place++)
        value[place] = (unsigned char)(number >> (24 - 8 * place));
}

#ifdef SQLITE
#include <sqlite3.h>

static sqlite3 *base;
static sqlite3_stmt *putting, *getting;

static void run(const char *words) { check(sqlite3_exec(base, words, 0, 0, 0) == SQLITE_OK, words); }

static void start(const char *file) {
    check(sqlite3_open(file, &base) == SQLITE_OK, "open");
    run("PRAGMA journal_mode = WAL");
    run("PRAGMA synchronous = FULL");
    run("CREATE TABLE entries (key BLOB PRIMARY KEY, value BLOB) WITHOUT ROWID");
    check(sqlite3_prepare_v2(base, "INSERT OR REPLACE INTO entries VALUES (?, ?)", -1, &putting, 0) == SQLITE_OK, "prepare");
    check(sqlite3_prepare_v2(base, "SELECT value FROM entries WHERE key = ?", -1, &getting, 0) == SQLITE_OK, "prepare");
}

static void begin(int reading) { run(reading ? "BEGIN" : "BEGIN IMMEDIATE"); }
static void commit(void) { run("COMMIT"); }

static void put(const unsigned char *key, const unsigned char *value) {
    sqlite3_bind_blob(putting, 1, key, 8, SQLITE_STATIC);
    sqlite3_bind_blob(putting, 2, value, 4, SQLITE_STATIC);
    check(sqlite3_step(putting) == SQLITE_DONE, "put");
    sqlite3_reset(putting);
}

static int is_there(const unsigned char *key, const unsigned char *value) {
    sqlite3_bind_blob(getting, 1, key, 8, SQLITE_STATIC);
    int same = sqlite3_step(getting) == SQLITE_ROW && sqlite3_column_bytes(getting, 0) == 4
        && memcmp(sqlite3_column_blob(getting, 0), value, 4) == 0;
    sqlite3_reset(getting);
    return same;
}
#endif

#ifdef LMDB
#include <lmdb.h>

static MDB_env *base;
static MDB_txn *change;
static MDB_dbi entries;

static void start(const char *file) {
    check(mdb_env_create(&base) == 0, "create");
    check(mdb_env_set_mapsize(base, (size_t)1 << 30) == 0, "size");
    check(mdb_env_open(base, file, MDB_NOSUBDIR, 0644) == 0, "open");
    check(mdb_txn_begin(base, 0, 0, &change) == 0, "begin");
    check(mdb_dbi_open(change, 0, 0, &entries) == 0, "entries");
    check(mdb_txn_commit(change) == 0, "commit");
}

static void begin(int reading) { check(mdb_txn_begin(base, 0, reading ? MDB_RDONLY : 0, &change) == 0, "begin"); }
static void commit(void) { check(mdb_txn_commit(change) == 0, "commit"); }

static void put(const unsigned char *key, const unsigned char *value) {
    MDB_val at = {8, (void *)key}, what = {4, (void *)value};
    check(mdb_put(change, entries, &at, &what, 0) == 0, "put");
}

static int is_there(const unsigned char *key, const unsigned char *value) {
    MDB_val at = {8, (void *)key}, what;
    return mdb_get(change, entries, &at, &what) == 0 && what.mv_size == 4 && memcmp(what.mv_data, value, 4) == 0;
}
#endif

int main(int count, char **words) {
    unsigned char key[8], value[4];
    check(count == 3, "usage: map KEYS FILE: it");
    uint64_t keys = strtoull(words[1], 0, 10);
    start(words[2]);
    uint64_t from = now();
    for (uint64_t number = 0; number < keys; number++) {
        if (number % BATCH == 0) begin(0);
        key_of(number, key);
        value_of(number, value);
        put(key, value);
        if (number % BATCH == BATCH - 1 || number == keys - 1) commit();
    }
    uint64_t put_all = now() - from;
    from = now();
    begin(1);
    for (uint64_t number = 0; number < keys; number++) {
        key_of(number, key);
        value_of(number, value);
        check(is_there(key, value), "get");
    }
    commit();
    printf("put %llu get %llu\n", (unsigned long long)put_all, (unsigned long long)(now() - from));
    return 0;
}
