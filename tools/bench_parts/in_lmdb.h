/* For `graph.c`: the store in LMDB. */

#include <lmdb.h>

static MDB_env *env;
static MDB_txn *txn;
static MDB_dbi positions, records, edges, settled;
static MDB_cursor *cursor;

static MDB_dbi made(const char *name) {
    MDB_dbi it;
    check(mdb_dbi_open(txn, name, MDB_CREATE, &it) == 0, name);
    return it;
}

static void begin(void) { check(mdb_txn_begin(env, 0, 0, &txn) == 0, "begin"); }
static void commit(void) { check(mdb_txn_commit(txn) == 0, "commit"); }

static void open_store(const char *file) {
    check(mdb_env_create(&env) == 0, "create");
    mdb_env_set_maxdbs(env, 4);
    mdb_env_set_mapsize(env, (size_t)64 << 30);
    check(mdb_env_open(env, file, MDB_NOSUBDIR, 0644) == 0, "open");
    begin();
    positions = made("positions");
    records = made("records");
    edges = made("edges");
    settled = made("settled");
    commit();
}

static void put(MDB_dbi map, const void *key, size_t key_length, const void *value, size_t value_length) {
    MDB_val at = {key_length, (void *)key}, is = {value_length, (void *)value};
    check(mdb_put(txn, map, &at, &is, 0) == 0, "put");
}

static const uint8_t *get(MDB_dbi map, const void *key, size_t key_length) {
    MDB_val at = {key_length, (void *)key}, is;
    return mdb_get(txn, map, &at, &is) == 0 ? is.mv_data : 0;
}

static uint32_t find(const uint8_t *packed) {
    const uint8_t *it = get(positions, packed, (size_t)length);
    return it ? number_at(it) : NONE;
}

static void put_position(const uint8_t *packed, uint32_t number) {
    uint8_t value[4];
    put_number(value, number);
    put(positions, packed, (size_t)length, value, 4);
}

static void put_record(uint32_t number, const uint8_t *packed, const record *kept) {
    uint8_t key[4], cell[LONGEST + 16];
    put_number(key, number);
    cell_of(cell, packed, kept);
    put(records, key, 4, cell, (size_t)length + 16);
}

static void get_record(uint32_t number, uint8_t *packed, record *kept) {
    uint8_t key[4];
    put_number(key, number);
    const uint8_t *cell = get(records, key, 4);
    check(cell != 0, "get");
    cell_in(cell, packed, kept);
}

static void put_edge(uint32_t successor, uint32_t predecessor) {
    uint8_t key[8];
    put_number(key, successor);
    put_number(key + 4, predecessor);
    put(edges, key, 8, "", 0);
}

static uint32_t next_edge(uint32_t successor, int64_t after) {
    uint8_t key[8];
    put_number(key, successor);
    put_number(key + 4, (uint32_t)(after + 1));
    MDB_val at = {8, key}, is;
    check(mdb_cursor_open(txn, edges, &cursor) == 0, "cursor");
    int found = mdb_cursor_get(cursor, &at, &is, MDB_SET_RANGE) == 0 && number_at(at.mv_data) == successor;
    uint32_t predecessor = found ? number_at((uint8_t *)at.mv_data + 4) : NONE;
    mdb_cursor_close(cursor);
    return predecessor;
}

static void put_order(uint32_t place, uint32_t number) {
    uint8_t key[4], value[4];
    put_number(key, place);
    put_number(value, number);
    put(settled, key, 4, value, 4);
}

static uint32_t get_order(uint32_t place) {
    uint8_t key[4];
    put_number(key, place);
    return number_at(get(settled, key, 4));
}

/* How many positions there are; each entry of the four maps is read in order, and each record's position is looked up. */
static uint32_t checked(void) {
    MDB_dbi maps[4] = {records, positions, edges, settled};
    MDB_val key, value;
    uint32_t found = 0;
    begin();
    for (int k = 0; k < 4; k++) {
        check(mdb_cursor_open(txn, maps[k], &cursor) == 0, "cursor");
        while (mdb_cursor_get(cursor, &key, &value, MDB_NEXT) == 0)
            found += k == 0 && get(positions, value.mv_data, value.mv_size - 16) != 0;
        mdb_cursor_close(cursor);
    }
    mdb_txn_abort(txn);
    return found;
}
