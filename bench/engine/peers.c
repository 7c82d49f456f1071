// The same batches as the engine's benchmark writes, given to LMDB, RocksDB, LevelDB and SQLite in a folder that
// should lie in memory: 60,000 batches, the one of number n with n % 16 + 1 entries of 2,118 bytes of group
// n % 100 + 1, made durable each (-DBATCHES, -DSIZE for others, -DENTRIES for as many in each batch). A line each: the
// store, MB/s of wall time, MB/s of processor time.
// Usage: peers FOLDER STORE (lmdb, rocksdb, leveldb or sqlite); each store gets a folder of its own.
#include <leveldb/c.h>
#include <lmdb.h>
#include <rocksdb/c.h>
#include <sqlite3.h>
#include <stdint.h>
#include <stdio.h>
#include <stdlib.h>
#include <string.h>
#include <time.h>

#ifndef BATCHES
#define BATCHES 60000
#endif
#ifndef SIZE
#define SIZE 2118
#endif
#ifdef ENTRIES
#define ENTRIES_OF(n) (ENTRIES)
#else
#define ENTRIES_OF(n) ((n) % 16 + 1)
#endif
enum { GROUPS = 100, KEY = 16 };

static char entry[SIZE];
static uint64_t next_index[GROUPS];
static uint64_t written;

static void fail(const char *what) {
    fprintf(stderr, "peers: %s\n", what);
    exit(1);
}

static double seconds(clockid_t clock) {
    struct timespec now;
    clock_gettime(clock, &now);
    return now.tv_sec + now.tv_nsec / 1e9;
}

// The key of the next entry of a group: its group and index, the greatest byte first, so that keys sort as entries do.
static void next_key(unsigned group, unsigned char key[KEY]) {
    uint64_t parts[2] = {group + 1, ++next_index[group]};
    for (int i = 0; i < KEY; i++) key[i] = parts[i / 8] >> (56 - 8 * (i % 8));
    written += SIZE;
}

static void lmdb(const char *path) {
    MDB_env *env;
    MDB_txn *txn;
    MDB_dbi table;
    if (mdb_env_create(&env) || mdb_env_set_mapsize(env, 8ull << 30) || mdb_env_open(env, path, MDB_NOSUBDIR, 0644))
        fail("lmdb isn't opened");
    if (mdb_txn_begin(env, NULL, 0, &txn) || mdb_dbi_open(txn, NULL, 0, &table) || mdb_txn_commit(txn)) fail("lmdb has no table");
    for (unsigned n = 0; n < BATCHES; n++) {
        if (mdb_txn_begin(env, NULL, 0, &txn)) fail("lmdb begins nothing");
        for (unsigned i = 0; i < ENTRIES_OF(n); i++) {
            unsigned char bytes[KEY];
            next_key(n % GROUPS, bytes);
            MDB_val key = {KEY, bytes}, value = {SIZE, entry};
            if (mdb_put(txn, table, &key, &value, 0)) fail("lmdb takes nothing");
        }
        if (mdb_txn_commit(txn)) fail("lmdb commits nothing");
    }
    mdb_env_close(env);
}

static void rocksdb(const char *path) {
    char *error = NULL;
    rocksdb_options_t *options = rocksdb_options_create();
    rocksdb_options_set_create_if_missing(options, 1);
    rocksdb_t *db = rocksdb_open(options, path, &error);
    if (error) fail(error);
    rocksdb_writeoptions_t *synced = rocksdb_writeoptions_create();
    rocksdb_writeoptions_set_sync(synced, 1);
    for (unsigned n = 0; n < BATCHES; n++) {
        rocksdb_writebatch_t *batch = rocksdb_writebatch_create();
        for (unsigned i = 0; i < ENTRIES_OF(n); i++) {
            unsigned char key[KEY];
            next_key(n % GROUPS, key);
            rocksdb_writebatch_put(batch, (char *)key, KEY, entry, SIZE);
        }
        rocksdb_write(db, synced, batch, &error);
        if (error) fail(error);
        rocksdb_writebatch_destroy(batch);
    }
    rocksdb_close(db);
}

static void leveldb(const char *path) {
    char *error = NULL;
    leveldb_options_t *options = leveldb_options_create();
    leveldb_options_set_create_if_missing(options, 1);
    leveldb_t *db = leveldb_open(options, path, &error);
    if (error) fail(error);
    leveldb_writeoptions_t *synced = leveldb_writeoptions_create();
    leveldb_writeoptions_set_sync(synced, 1);
    for (unsigned n = 0; n < BATCHES; n++) {
        leveldb_writebatch_t *batch = leveldb_writebatch_create();
        for (unsigned i = 0; i < ENTRIES_OF(n); i++) {
            unsigned char key[KEY];
            next_key(n % GROUPS, key);
            leveldb_writebatch_put(batch, (char *)key, KEY, entry, SIZE);
        }
        leveldb_write(db, synced, batch, &error);
        if (error) fail(error);
        leveldb_writebatch_destroy(batch);
    }
    leveldb_close(db);
}

static void sqlite(const char *path) {
    sqlite3 *db;
    sqlite3_stmt *put;
    const char *made = "pragma journal_mode = wal; pragma synchronous = full; create table entries (key blob primary key, value blob) without rowid;";
    if (sqlite3_open(path, &db) || sqlite3_exec(db, made, NULL, NULL, NULL)) fail("sqlite isn't opened");
    if (sqlite3_prepare_v2(db, "insert into entries values (?, ?)", -1, &put, NULL)) fail("sqlite has no table");
    for (unsigned n = 0; n < BATCHES; n++) {
        if (sqlite3_exec(db, "begin", NULL, NULL, NULL)) fail("sqlite begins nothing");
        for (unsigned i = 0; i < ENTRIES_OF(n); i++) {
            unsigned char key[KEY];
            next_key(n % GROUPS, key);
            sqlite3_bind_blob(put, 1, key, KEY, SQLITE_STATIC);
            sqlite3_bind_blob(put, 2, entry, SIZE, SQLITE_STATIC);
            if (sqlite3_step(put) != SQLITE_DONE) fail("sqlite takes nothing");
            sqlite3_reset(put);
        }
        if (sqlite3_exec(db, "commit", NULL, NULL, NULL)) fail("sqlite commits nothing");
    }
    sqlite3_finalize(put);
    sqlite3_close(db);
}

int main(int count, char **words) {
    if (count != 3) fail("usage: peers FOLDER STORE");
    for (int i = 0; i < SIZE; i++) entry[i] = (i * 31 + 7) % 251;
    char path[4096];
    snprintf(path, sizeof path, "%s/%s", words[1], words[2]);
    double wall = seconds(CLOCK_MONOTONIC), processor = seconds(CLOCK_PROCESS_CPUTIME_ID);
    if (!strcmp(words[2], "lmdb")) lmdb(path);
    else if (!strcmp(words[2], "rocksdb")) rocksdb(path);
    else if (!strcmp(words[2], "leveldb")) leveldb(path);
    else if (!strcmp(words[2], "sqlite")) sqlite(path);
    else fail("no such store");
    wall = seconds(CLOCK_MONOTONIC) - wall, processor = seconds(CLOCK_PROCESS_CPUTIME_ID) - processor;
    printf("%-8s %8.2f MB/s %8.2f MB/s of processor time\n", words[2], written / 1e6 / wall, written / 1e6 / processor);
    return 0;
}
