/* For `graph.c`: the store in SQLite, by a write-ahead log with full syncs. */

#include <sqlite3.h>

static sqlite3 *base;
static sqlite3_stmt *find_it, *put_it, *put_cell, *get_cell, *put_edge_it, *next_edge_it, *put_order_it, *get_order_it;

static void run(const char *words) { check(sqlite3_exec(base, words, 0, 0, 0) == SQLITE_OK, words); }

static sqlite3_stmt *made(const char *words) {
    sqlite3_stmt *it;
    check(sqlite3_prepare_v2(base, words, -1, &it, 0) == SQLITE_OK, words);
    return it;
}

static void open_store(const char *file) {
    check(sqlite3_open(file, &base) == SQLITE_OK, "open");
    run("PRAGMA journal_mode = WAL");
    run("PRAGMA synchronous = FULL");
    run("CREATE TABLE IF NOT EXISTS positions (packed BLOB PRIMARY KEY, number INTEGER) WITHOUT ROWID");
    run("CREATE TABLE IF NOT EXISTS records (number INTEGER PRIMARY KEY, cell BLOB)");
    run("CREATE TABLE IF NOT EXISTS edges (successor INTEGER, predecessor INTEGER, PRIMARY KEY (successor, predecessor)) WITHOUT ROWID");
    run("CREATE TABLE IF NOT EXISTS settled (place INTEGER PRIMARY KEY, number INTEGER)");
    find_it = made("SELECT number FROM positions WHERE packed = ?");
    put_it = made("INSERT INTO positions VALUES (?, ?)");
    put_cell = made("INSERT OR REPLACE INTO records VALUES (?, ?)");
    get_cell = made("SELECT cell FROM records WHERE number = ?");
    put_edge_it = made("INSERT OR IGNORE INTO edges VALUES (?, ?)");
    next_edge_it = made("SELECT predecessor FROM edges WHERE successor = ? AND predecessor > ? ORDER BY predecessor LIMIT 1");
    put_order_it = made("INSERT INTO settled VALUES (?, ?)");
    get_order_it = made("SELECT number FROM settled WHERE place = ?");
}

static void begin(void) { run("BEGIN IMMEDIATE"); }
static void commit(void) { run("COMMIT"); }

static uint32_t found(sqlite3_stmt *it) {
    uint32_t number = sqlite3_step(it) == SQLITE_ROW ? (uint32_t)sqlite3_column_int64(it, 0) : NONE;
    sqlite3_reset(it);
    return number;
}

static void done(sqlite3_stmt *it) {
    check(sqlite3_step(it) == SQLITE_DONE, "put");
    sqlite3_reset(it);
}

static uint32_t find(const uint8_t *packed) {
    sqlite3_bind_blob(find_it, 1, packed, length, SQLITE_STATIC);
    return found(find_it);
}

static void put_position(const uint8_t *packed, uint32_t number) {
    sqlite3_bind_blob(put_it, 1, packed, length, SQLITE_STATIC);
    sqlite3_bind_int64(put_it, 2, number);
    done(put_it);
}

static void put_record(uint32_t number, const uint8_t *packed, const record *kept) {
    uint8_t cell[LONGEST + 16];
    cell_of(cell, packed, kept);
    sqlite3_bind_int64(put_cell, 1, number);
    sqlite3_bind_blob(put_cell, 2, cell, length + 16, SQLITE_STATIC);
    done(put_cell);
}

static void get_record(uint32_t number, uint8_t *packed, record *kept) {
    sqlite3_bind_int64(get_cell, 1, number);
    check(sqlite3_step(get_cell) == SQLITE_ROW, "get");
    cell_in(sqlite3_column_blob(get_cell, 0), packed, kept);
    sqlite3_reset(get_cell);
}

static void put_pair(sqlite3_stmt *it, uint32_t one, uint32_t other) {
    sqlite3_bind_int64(it, 1, one);
    sqlite3_bind_int64(it, 2, other);
    done(it);
}

static void put_edge(uint32_t successor, uint32_t predecessor) { put_pair(put_edge_it, successor, predecessor); }
static void put_order(uint32_t place, uint32_t number) { put_pair(put_order_it, place, number); }

static uint32_t next_edge(uint32_t successor, int64_t after) {
    sqlite3_bind_int64(next_edge_it, 1, successor);
    sqlite3_bind_int64(next_edge_it, 2, after);
    return found(next_edge_it);
}

static uint32_t get_order(uint32_t place) {
    sqlite3_bind_int64(get_order_it, 1, place);
    return found(get_order_it);
}

/* How many positions there are, once SQLite has checked its file. */
static uint32_t checked(void) {
    sqlite3_stmt *it = made("PRAGMA integrity_check");
    check(sqlite3_step(it) == SQLITE_ROW && strcmp((const char *)sqlite3_column_text(it, 0), "ok") == 0, "check");
    sqlite3_finalize(it);
    return found(made("SELECT count(*) FROM records"));
}
