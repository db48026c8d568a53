/* One round of durable transactions of programs that a user might take instead, beside the device itself.
 *
 *   peers FOLDER COUNT PAGES    COUNT transactions of each; one rewrites PAGES random pages out of 4,096 of 512 bytes, and is on
 *                               the device when it is told
 *
 * Prints a line for each program that it was built with (-DWITH_SQLITE, -DWITH_LMDB, -DWITH_BERKELEY): transactions a second,
 * and what that is of appends of as many bytes, each with an fdatasync, to a file that is as long before as after.
 * bench/durable.sh builds it, and bench/commits.sh without other programs. */
#define _GNU_SOURCE
#include <errno.h>
#include <fcntl.h>
#include <stdio.h>
#include <stdlib.h>
#include <string.h>
#include <sys/stat.h>
#include <time.h>
#include <unistd.h>
#ifdef WITH_SQLITE
#include <sqlite3.h>
#endif
#ifdef WITH_LMDB
#include <lmdb.h>
#endif
#ifdef WITH_BERKELEY
#include <db.h>
#endif

#define PAGE_BYTES 512
#define FILE_PAGES 4096
#define MOST_PAGES 16

struct plan {
    const char *folder;
    unsigned count;
    unsigned pages;
};

static unsigned seed = 12345;

/* The same pages as the script writes that bench/folder.sh makes. */
static unsigned random_page(void) {
    seed = seed * 1664525u + 1013904223u;
    return (seed >> 8) % FILE_PAGES;
}

static void fail(const char *what) {
    fprintf(stderr, "peers: %s: %s\n", what, strerror(errno));
    exit(1);
}

static void must(int holds, const char *what) {
    if (!holds) fail(what);
}

static double seconds(void) {
    struct timespec now;
    clock_gettime(CLOCK_MONOTONIC, &now);
    return (double)now.tv_sec + (double)now.tv_nsec / 1e9;
}

static void path_in(char *path, size_t size, const char *folder, const char *name) {
    must(snprintf(path, size, "%s/%s", folder, name) < (int)size, "the folder's name is too long");
}

static char *some_page(unsigned number) {
    static char page[PAGE_BYTES];
    memset(page, (int)(number % 251 + 1), sizeof page);
    return page;
}

/* Appends a second, each of as many bytes as a transaction writes, with its own fdatasync. */
static double append_rate(const struct plan *plan) {
    static char bytes[PAGE_BYTES * FILE_PAGES];
    char path[4096];
    path_in(path, sizeof path, plan->folder, "peers-appended");
    int file = open(path, O_CREAT | O_TRUNC | O_RDWR, 0600);
    must(file >= 0, path);
    memset(bytes, 1, sizeof bytes);
    must(pwrite(file, bytes, sizeof bytes, 0) == (ssize_t)sizeof bytes, "write");
    must(fsync(file) == 0, "fsync");
    size_t length = (size_t)PAGE_BYTES * plan->pages;
    unsigned places = FILE_PAGES / MOST_PAGES;
    double start = seconds();
    for (unsigned round = 0; round < plan->count; round++) {
        off_t at = (off_t)(round % places) * (off_t)length;
        must(pwrite(file, bytes, length, at) == (ssize_t)length, "write");
        must(fdatasync(file) == 0, "fdatasync");
    }
    double took = seconds() - start;
    close(file);
    unlink(path);
    return plan->count / took;
}

#ifdef WITH_SQLITE
static void sqlite_do(sqlite3 *db, const char *words) {
    must(sqlite3_exec(db, words, NULL, NULL, NULL) == SQLITE_OK, words);
}

static void sqlite_put(sqlite3_stmt *put, unsigned at, unsigned number) {
    sqlite3_bind_int64(put, 1, at);
    sqlite3_bind_blob(put, 2, some_page(number), PAGE_BYTES, SQLITE_STATIC);
    must(sqlite3_step(put) == SQLITE_DONE, "sqlite: put");
    sqlite3_reset(put);
}

/* A write-ahead log that is synced at each commit. */
static double sqlite_rate(const struct plan *plan) {
    char path[4096], more[4096];
    sqlite3 *db;
    sqlite3_stmt *put;
    path_in(path, sizeof path, plan->folder, "peers.sqlite");
    unlink(path);
    must(sqlite3_open(path, &db) == SQLITE_OK, "sqlite: open");
    sqlite_do(db, "PRAGMA journal_mode = WAL");
    sqlite_do(db, "PRAGMA synchronous = FULL");
    sqlite_do(db, "CREATE TABLE pages (at INTEGER PRIMARY KEY, bytes BLOB)");
    must(sqlite3_prepare_v2(db, "REPLACE INTO pages VALUES (?, ?)", -1, &put, NULL) == SQLITE_OK, "sqlite: prepare");
    sqlite_do(db, "BEGIN");
    for (unsigned at = 0; at < FILE_PAGES; at++) sqlite_put(put, at, at);
    sqlite_do(db, "COMMIT");
    double start = seconds();
    for (unsigned round = 0; round < plan->count; round++) {
        sqlite_do(db, "BEGIN IMMEDIATE");
        for (unsigned page = 0; page < plan->pages; page++) sqlite_put(put, random_page(), round);
        sqlite_do(db, "COMMIT");
    }
    double took = seconds() - start;
    sqlite3_finalize(put);
    sqlite3_close(db);
    unlink(path);
    path_in(more, sizeof more, plan->folder, "peers.sqlite-wal");
    unlink(more);
    path_in(more, sizeof more, plan->folder, "peers.sqlite-shm");
    unlink(more);
    return plan->count / took;
}
#endif

#ifdef WITH_LMDB
static void lmdb_put(MDB_txn *txn, MDB_dbi table, unsigned at, unsigned number) {
    MDB_val key = { sizeof at, &at }, bytes = { PAGE_BYTES, some_page(number) };
    must(mdb_put(txn, table, &key, &bytes, 0) == 0, "lmdb: put");
}

/* Synced at each commit, as it is where no flag says otherwise. */
static double lmdb_rate(const struct plan *plan) {
    char path[4096], lock[4096];
    MDB_env *env;
    MDB_txn *txn;
    MDB_dbi table;
    path_in(path, sizeof path, plan->folder, "peers.lmdb");
    path_in(lock, sizeof lock, plan->folder, "peers.lmdb-lock");
    unlink(path);
    must(mdb_env_create(&env) == 0, "lmdb: create");
    must(mdb_env_set_mapsize(env, 256u << 20) == 0, "lmdb: size");
    must(mdb_env_open(env, path, MDB_NOSUBDIR, 0600) == 0, "lmdb: open");
    must(mdb_txn_begin(env, NULL, 0, &txn) == 0, "lmdb: begin");
    must(mdb_dbi_open(txn, NULL, MDB_INTEGERKEY, &table) == 0, "lmdb: table");
    for (unsigned at = 0; at < FILE_PAGES; at++) lmdb_put(txn, table, at, at);
    must(mdb_txn_commit(txn) == 0, "lmdb: commit");
    double start = seconds();
    for (unsigned round = 0; round < plan->count; round++) {
        must(mdb_txn_begin(env, NULL, 0, &txn) == 0, "lmdb: begin");
        for (unsigned page = 0; page < plan->pages; page++) lmdb_put(txn, table, random_page(), round);
        must(mdb_txn_commit(txn) == 0, "lmdb: commit");
    }
    double took = seconds() - start;
    mdb_env_close(env);
    unlink(path);
    unlink(lock);
    return plan->count / took;
}
#endif

#ifdef WITH_BERKELEY
static void berkeley_put(DB *db, DB_TXN *txn, unsigned at, unsigned number) {
    DBT key, bytes;
    memset(&key, 0, sizeof key);
    memset(&bytes, 0, sizeof bytes);
    key.data = &at;
    key.size = sizeof at;
    bytes.data = some_page(number);
    bytes.size = PAGE_BYTES;
    must(db->put(db, txn, &key, &bytes, 0) == 0, "berkeley: put");
}

/* A B-tree with a log that is synced at each commit. Its folder stays for bench/durable.sh to remove. */
static double berkeley_rate(const struct plan *plan) {
    char path[4096];
    DB_ENV *env;
    DB *db;
    DB_TXN *txn;
    static unsigned used = 0;
    char name[32];
    snprintf(name, sizeof name, "peers-berkeley-%u", used++);
    path_in(path, sizeof path, plan->folder, name);
    must(mkdir(path, 0700) == 0, path);
    must(db_env_create(&env, 0) == 0, "berkeley: create");
    unsigned parts = DB_CREATE | DB_PRIVATE | DB_INIT_MPOOL | DB_INIT_LOCK | DB_INIT_LOG | DB_INIT_TXN;
    must(env->open(env, path, parts, 0) == 0, "berkeley: environment");
    must(db_create(&db, env, 0) == 0, "berkeley: table");
    must(db->open(db, NULL, "pages", NULL, DB_BTREE, DB_CREATE | DB_AUTO_COMMIT, 0600) == 0, "berkeley: open");
    must(env->txn_begin(env, NULL, &txn, 0) == 0, "berkeley: begin");
    for (unsigned at = 0; at < FILE_PAGES; at++) berkeley_put(db, txn, at, at);
    must(txn->commit(txn, 0) == 0, "berkeley: commit");
    double start = seconds();
    for (unsigned round = 0; round < plan->count; round++) {
        must(env->txn_begin(env, NULL, &txn, 0) == 0, "berkeley: begin");
        for (unsigned page = 0; page < plan->pages; page++) berkeley_put(db, txn, random_page(), round);
        must(txn->commit(txn, DB_TXN_SYNC) == 0, "berkeley: commit");
    }
    double took = seconds() - start;
    db->close(db, 0);
    env->close(env, 0);
    return plan->count / took;
}
#endif

static void show(const char *name, double rate, double appends) {
    printf("%s: %.0f a second, %.0f hundredths of an append\n", name, rate, 100 * rate / appends);
}

int main(int words, char **word) {
    if (words != 4) {
        fprintf(stderr, "usage: peers FOLDER COUNT PAGES\n");
        return 1;
    }
    struct plan plan = { word[1], (unsigned)atoi(word[2]), (unsigned)atoi(word[3]) };
    if (plan.count == 0 || plan.pages == 0 || plan.pages > MOST_PAGES) {
        fprintf(stderr, "peers: COUNT from 1 on, PAGES from 1 to %d\n", MOST_PAGES);
        return 1;
    }
    double appends = append_rate(&plan);
    show("append", appends, appends);
#ifdef WITH_SQLITE
    show("sqlite", sqlite_rate(&plan), appends);
#endif
#ifdef WITH_LMDB
    show("lmdb", lmdb_rate(&plan), appends);
#endif
#ifdef WITH_BERKELEY
    show("berkeley", berkeley_rate(&plan), appends);
#endif
    return 0;
}
