/* One transaction on four stores in one process: the proved store, the plain C store, LMDB and SQLite. Built and run by benches/peers.
 *
 *   peers [TRANSACTIONS]        1 to 200,000 for each store and round, default 20,000
 *
 * The transaction reads two cells of 1,024 and writes the second one. On the proved store and the plain C store it is begin, read, read, write, seal and
 * three advances; on LMDB a write transaction with two gets and a put; on SQLite BEGIN IMMEDIATE, two SELECTs, an UPDATE and COMMIT, prepared beforehand.
 * Five rounds on each store in turn; its shortest counts. At the end all must hold the same values, else the exit status is 1.
 *
 * LMDB is opened with MDB_NOSYNC in a new folder of the current one, with integer keys, and SQLite in memory, so no store waits for a disk. What is not
 * equal about them is printed with the ratios. */
#define _POSIX_C_SOURCE 200809L
#include "plain_store.h"
#include "rukkanei.h"

#include <lmdb.h>
#include <sqlite3.h>
#include <stdio.h>
#include <stdlib.h>
#include <string.h>
#include <time.h>
#include <unistd.h>

enum { CELLS = 1024, ROUNDS = 5, MOST = 200000 };

static void fail(const char *what)
{
    fprintf(stderr, "peers: %s\n", what);
    exit(2);
}

static void expect(int holds, const char *what)
{
    if (!holds) {
        fail(what);
    }
}

/* The cells and the value of transaction k: two different cells, and a value that depends on what was read and is not the one found. */
static uint32_t first_of(uint32_t k)
{
    return (k * 7919u) % CELLS;
}

static uint32_t second_of(uint32_t k)
{
    return (first_of(k) + 1 + (k * 104729u) % (CELLS - 1)) % CELLS;
}

static uint32_t value_of(uint32_t a, uint32_t b, uint32_t k)
{
    return b + ((a + k) | 1);
}

/* ---- the proved store */

static uint32_t values[CELLS], logs[RUKKANEI_LOG_WORDS];
static uint8_t classes[CELLS], claimants[CELLS], exclusives[CELLS];
static uint16_t readers[CELLS];
static rukkanei_sessions sessions;

#define LENT values, CELLS, classes, CELLS, readers, CELLS, claimants, CELLS, exclusives, CELLS, logs, RUKKANEI_LOG_WORDS

static void proved_open(void)
{
    memset(classes, 15, sizeof classes);
    rukkanei_set_up_reply up = rukkanei_set_up(sessions, LENT);
    expect(up.number == RUKKANEI_DONE, "the proved store's set-up");
    sessions = up.sessions;
}

/* Puts the record that a call of session 0 hands back in its place. */
static inline rukkanei_reply kept(rukkanei_reply reply)
{
    sessions.records[0] = reply.session;
    return reply;
}

static void proved_run(uint32_t from, uint32_t to)
{
    const rukkanei_session *own = &sessions.records[0];
    for (uint32_t k = from; k < to; k++) {
        kept(rukkanei_begin(*own, LENT, 0));
        uint32_t a = kept(rukkanei_read(*own, LENT, 0, first_of(k))).value;
        uint32_t b = kept(rukkanei_read(*own, LENT, 0, second_of(k))).value;
        kept(rukkanei_write(*own, LENT, 0, second_of(k), value_of(a, b, k)));
        kept(rukkanei_seal(*own, LENT, 0));
        uint32_t number = 0;
        for (int i = 0; i < 3; i++) {
            number = kept(rukkanei_advance(*own, LENT, 0)).number;
        }
        expect(number == RUKKANEI_COMMITTED, "a transaction of the proved store");
    }
}

static uint32_t proved_value(uint32_t cell)
{
    return values[cell];
}

/* ---- the plain C store */

static uint32_t plain_values[CELLS], plain_logs[2048];
static uint8_t plain_claimants[CELLS], plain_exclusives[CELLS];
static uint16_t plain_readers[CELLS];
static plain_session plain_sessions[PLAIN_SESSIONS];
static const plain_lent lent = {plain_values, CELLS, classes, CELLS, plain_readers, CELLS, plain_claimants, CELLS, plain_exclusives, CELLS, plain_logs, 2048};

static void plain_open(void)
{
    expect(plain_set_up(&lent, plain_sessions).number == 100, "the plain C store's set-up");
}

static void plain_run(uint32_t from, uint32_t to)
{
    for (uint32_t k = from; k < to; k++) {
        plain_begin(&lent, plain_sessions, 0);
        uint32_t a = plain_read(&lent, plain_sessions, 0, first_of(k)).value;
        uint32_t b = plain_read(&lent, plain_sessions, 0, second_of(k)).value;
        plain_write(&lent, plain_sessions, 0, second_of(k), value_of(a, b, k));
        plain_seal(&lent, plain_sessions, 0);
        uint32_t number = 0;
        for (int i = 0; i < 3; i++) {
            number = plain_advance(&lent, plain_sessions, 0).number;
        }
        expect(number == 105, "a transaction of the plain C store");
    }
}

static uint32_t plain_value(uint32_t cell)
{
    return plain_values[cell];
}

/* ---- LMDB */

static char folder[] = "peers-XXXXXX";
static MDB_env *env;
static MDB_dbi dbi;

static uint32_t lmdb_get(MDB_txn *txn, uint32_t cell)
{
    uint64_t key = cell;
    MDB_val k = {sizeof key, &key}, v;
    expect(mdb_get(txn, dbi, &k, &v) == 0 && v.mv_size == sizeof(uint32_t), "mdb_get");
    uint32_t value;
    memcpy(&value, v.mv_data, sizeof value);
    return value;
}

static void lmdb_put(MDB_txn *txn, uint32_t cell, uint32_t value)
{
    uint64_t key = cell;
    MDB_val k = {sizeof key, &key}, v = {sizeof value, &value};
    expect(mdb_put(txn, dbi, &k, &v, 0) == 0, "mdb_put");
}

/* At exit, however the run ends. */
static void remove_folder(void)
{
    static const char *const files[] = {"data.mdb", "lock.mdb"};
    for (size_t i = 0; i < 2; i++) {
        char path[sizeof folder + 16];
        snprintf(path, sizeof path, "%s/%s", folder, files[i]);
        unlink(path);
    }
    rmdir(folder);
}

static void lmdb_open(void)
{
    MDB_txn *txn;
    expect(mkdtemp(folder) != NULL, "mkdtemp");
    expect(atexit(remove_folder) == 0, "atexit");
    expect(mdb_env_create(&env) == 0 && mdb_env_set_mapsize(env, (size_t)1 << 24) == 0, "mdb_env_create");
    expect(mdb_env_open(env, folder, MDB_NOSYNC, 0600) == 0, "mdb_env_open");
    expect(mdb_txn_begin(env, NULL, 0, &txn) == 0 && mdb_dbi_open(txn, NULL, MDB_INTEGERKEY, &dbi) == 0, "mdb_dbi_open");
    for (uint32_t i = 0; i < CELLS; i++) {
        lmdb_put(txn, i, 0);
    }
    expect(mdb_txn_commit(txn) == 0, "mdb_txn_commit");
}

static void lmdb_run(uint32_t from, uint32_t to)
{
    for (uint32_t k = from; k < to; k++) {
        MDB_txn *txn;
        expect(mdb_txn_begin(env, NULL, 0, &txn) == 0, "mdb_txn_begin");
        uint32_t a = lmdb_get(txn, first_of(k)), b = lmdb_get(txn, second_of(k));
        lmdb_put(txn, second_of(k), value_of(a, b, k));
        expect(mdb_txn_commit(txn) == 0, "mdb_txn_commit");
    }
}

static uint32_t lmdb_value(uint32_t cell)
{
    MDB_txn *txn;
    expect(mdb_txn_begin(env, NULL, MDB_RDONLY, &txn) == 0, "mdb_txn_begin");
    uint32_t value = lmdb_get(txn, cell);
    mdb_txn_abort(txn);
    return value;
}

/* ---- SQLite */

static sqlite3 *db;
static sqlite3_stmt *begin, *select_one, *update, *commit;

static sqlite3_stmt *prepared(const char *sql)
{
    sqlite3_stmt *s;
    expect(sqlite3_prepare_v2(db, sql, -1, &s, NULL) == SQLITE_OK, sql);
    return s;
}

static void finish(sqlite3_stmt *s)
{
    expect(sqlite3_step(s) == SQLITE_DONE, sqlite3_sql(s));
    sqlite3_reset(s);
}

static uint32_t sqlite_value(uint32_t cell)
{
    sqlite3_bind_int64(select_one, 1, cell);
    expect(sqlite3_step(select_one) == SQLITE_ROW, "SELECT");
    uint32_t value = (uint32_t)sqlite3_column_int64(select_one, 0);
    sqlite3_reset(select_one);
    return value;
}

static void sqlite_open(void)
{
    expect(sqlite3_open(":memory:", &db) == SQLITE_OK, "sqlite3_open");
    expect(sqlite3_exec(db, "CREATE TABLE cells(cell INTEGER PRIMARY KEY, value INTEGER NOT NULL)", NULL, NULL, NULL) == SQLITE_OK, "CREATE TABLE");
    sqlite3_stmt *insert = prepared("INSERT INTO cells VALUES (?1, 0)");
    for (uint32_t i = 0; i < CELLS; i++) {
        sqlite3_bind_int64(insert, 1, i);
        finish(insert);
    }
    sqlite3_finalize(insert);
    begin = prepared("BEGIN IMMEDIATE");
    select_one = prepared("SELECT value FROM cells WHERE cell = ?1");
    update = prepared("UPDATE cells SET value = ?2 WHERE cell = ?1");
    commit = prepared("COMMIT");
}

static void sqlite_run(uint32_t from, uint32_t to)
{
    for (uint32_t k = from; k < to; k++) {
        finish(begin);
        uint32_t a = sqlite_value(first_of(k)), b = sqlite_value(second_of(k));
        sqlite3_bind_int64(update, 1, second_of(k));
        sqlite3_bind_int64(update, 2, value_of(a, b, k));
        finish(update);
        finish(commit);
    }
}

static void sqlite_close(void)
{
    sqlite3_finalize(begin);
    sqlite3_finalize(select_one);
    sqlite3_finalize(update);
    sqlite3_finalize(commit);
    sqlite3_close(db);
}

/* ---- the run */

static const struct {
    const char *name;
    void (*open)(void);
    void (*run)(uint32_t from, uint32_t to);
    uint32_t (*value)(uint32_t cell);
} stores[] = {
    {"proved store", proved_open, proved_run, proved_value},
    {"plain C store", plain_open, plain_run, plain_value},
    {"LMDB", lmdb_open, lmdb_run, lmdb_value},
    {"SQLite", sqlite_open, sqlite_run, sqlite_value},
};

enum { STORES = sizeof stores / sizeof stores[0] };

static double now(void)
{
    struct timespec t;
    clock_gettime(CLOCK_MONOTONIC, &t);
    return (double)t.tv_sec * 1e9 + (double)t.tv_nsec;
}

static const char not_equal[] =
    "Not equal: the proved store and plain C work on arrays that the caller lends, at most 1,024 numbers of 32 bits, found by index, and forget them with\n"
    "the process. LMDB and SQLite hold keys and values of many kinds and sizes, grow, and find a cell by a tree of pages that they keep themselves. LMDB\n"
    "copies each page that changes, locks against other processes and writes a file by system calls, here without syncing; SQLite runs a statement's\n"
    "program step by step and keeps a journal, here in memory. Both let one writer in at a time; the first two overlap up to sixteen transactions, of which\n"
    "one runs here.\n";

int main(int argc, char **argv)
{
    long asked = argc > 1 ? strtol(argv[1], NULL, 10) : 20000;
    if (argc > 2 || asked < 1 || asked > MOST) {
        fprintf(stderr, "usage: peers [TRANSACTIONS, 1 to %d]\n", MOST);
        return 2;
    }
    uint32_t count = (uint32_t)asked;
    double best[STORES];
    for (int s = 0; s < STORES; s++) {
        stores[s].open();
        best[s] = 1e18;
    }
    for (uint32_t round = 0; round < ROUNDS; round++) {
        for (int s = 0; s < STORES; s++) {
            double start = now();
            stores[s].run(round * count, (round + 1) * count);
            double took = now() - start;
            best[s] = took < best[s] ? took : best[s];
        }
    }
    int differ = 0;
    for (uint32_t cell = 0; cell < CELLS; cell++) {
        for (int s = 1; s < STORES; s++) {
            differ |= stores[s].value(cell) != stores[0].value(cell);
        }
    }
    mdb_env_close(env);
    sqlite_close();
    for (int s = 0; s < STORES; s++) {
        printf("%-14s %9.1f ns a transaction, %7.2f times that of the proved store\n", stores[s].name, best[s] / count, best[s] / best[0]);
    }
    printf("%s", not_equal);
    if (differ) {
        printf("THE STORES DIFFER\n");
    }
    return differ;
}
