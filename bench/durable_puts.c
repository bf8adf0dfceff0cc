// Durable puts of a library in this process: puts FILE HELD. The one that is compiled in is CABINET (Tokyo Cabinet's hash database), CABINET_TREE (its B+ tree), CABINET_FIXED (its fixed-length
// one), SQLITE or LMDB.
#include "durable.h"

static void load_begin(void);
static void load_end(void);
static void begin(int list);
static void put(long number, const char *value);
static void commit(int list);

#if defined CABINET
#include <tchdb.h>
static TCHDB *db;

static void open_it(const char *name) {
  db = tchdbnew();
  must(tchdbopen(db, name, HDBOWRITER | HDBOCREAT | HDBOTSYNC), "tchdbopen");
}
static void load_begin(void) {}
static void load_end(void) { must(tchdbsync(db), "tchdbsync"); }
static void begin(int list) { must(tchdbtranbegin(db), "tchdbtranbegin"), (void)list; }
static void commit(int list) { must(tchdbtrancommit(db), "tchdbtrancommit"), (void)list; }
static void put(long number, const char *value) {
  char key[KEY];
  spell_key(key, number);
  must(tchdbput(db, key, KEY, value, VALUE), "tchdbput");
}
static long count(void) { return (long)tchdbrnum(db); }
static void close_it(void) { must(tchdbclose(db), "tchdbclose"); }
static const char *version(void) { return tcversion; }

#elif defined CABINET_TREE
#include <tcbdb.h>
static TCBDB *db;

static void open_it(const char *name) {
  db = tcbdbnew();
  must(tcbdbopen(db, name, BDBOWRITER | BDBOCREAT | BDBOTSYNC), "tcbdbopen");
}
static void load_begin(void) {}
static void load_end(void) { must(tcbdbsync(db), "tcbdbsync"); }
static void begin(int list) { must(tcbdbtranbegin(db), "tcbdbtranbegin"), (void)list; }
static void commit(int list) { must(tcbdbtrancommit(db), "tcbdbtrancommit"), (void)list; }
static void put(long number, const char *value) {
  char key[KEY];
  spell_key(key, number);
  must(tcbdbput(db, key, KEY, value, VALUE), "tcbdbput");
}
static long count(void) { return (long)tcbdbrnum(db); }
static void close_it(void) { must(tcbdbclose(db), "tcbdbclose"); }
static const char *version(void) { return tcversion; }

#elif defined CABINET_FIXED
#include <tcfdb.h>
static TCFDB *db;

static void open_it(const char *name) {
  db = tcfdbnew();
  must(tcfdbtune(db, 255, 268435456) && tcfdbopen(db, name, FDBOWRITER | FDBOCREAT | FDBOTSYNC), "tcfdbopen");
}
static void load_begin(void) {}
static void load_end(void) { must(tcfdbsync(db), "tcfdbsync"); }
static void begin(int list) { must(tcfdbtranbegin(db), "tcfdbtranbegin"), (void)list; }
static void commit(int list) { must(tcfdbtrancommit(db), "tcfdbtrancommit"), (void)list; }
static void put(long number, const char *value) { must(tcfdbput(db, number + 1, value, VALUE), "tcfdbput"); }
static long count(void) { return (long)tcfdbrnum(db); }
static void close_it(void) { must(tcfdbclose(db), "tcfdbclose"); }
static const char *version(void) { return tcversion; }

#elif defined SQLITE
#include <sqlite3.h>
static sqlite3 *db;
static sqlite3_stmt *insert;

static void run(const char *text) { must(sqlite3_exec(db, text, NULL, NULL, NULL) == SQLITE_OK, sqlite3_errmsg(db)); }
static void open_it(const char *name) {
  must(sqlite3_open(name, &db) == SQLITE_OK, "sqlite3_open");
  run("PRAGMA journal_mode = WAL");
  run("PRAGMA synchronous = FULL");
  run("CREATE TABLE pairs (key BLOB PRIMARY KEY, value BLOB) WITHOUT ROWID");
  must(sqlite3_prepare_v2(db, "INSERT OR REPLACE INTO pairs VALUES (?, ?)", -1, &insert, NULL) == SQLITE_OK, "sqlite3_prepare_v2");
}
static void load_begin(void) { run("BEGIN"); }
static void load_end(void) { run("COMMIT"); }
static void begin(int list) {
  if (list > 1) run("BEGIN");
}
static void commit(int list) {
  if (list > 1) run("COMMIT");
}
static void put(long number, const char *value) {
  char key[KEY];
  spell_key(key, number);
  sqlite3_bind_blob(insert, 1, key, KEY, SQLITE_STATIC);
  sqlite3_bind_blob(insert, 2, value, VALUE, SQLITE_STATIC);
  must(sqlite3_step(insert) == SQLITE_DONE && sqlite3_reset(insert) == SQLITE_OK, "sqlite3_step");
}
static long count(void) {
  sqlite3_stmt *all;
  must(sqlite3_prepare_v2(db, "SELECT count(*) FROM pairs", -1, &all, NULL) == SQLITE_OK && sqlite3_step(all) == SQLITE_ROW, "count");
  long found = (long)sqlite3_column_int64(all, 0);
  sqlite3_finalize(all);
  return found;
}
static void close_it(void) { sqlite3_finalize(insert), must(sqlite3_close(db) == SQLITE_OK, "sqlite3_close"); }
static const char *version(void) { return sqlite3_libversion(); }

#elif defined LMDB
#include <lmdb.h>
static MDB_env *env;
static MDB_txn *txn;
static MDB_dbi dbi;

static void open_it(const char *name) {
  must(mdb_env_create(&env) == 0 && mdb_env_set_mapsize(env, (size_t)1 << 30) == 0 && mdb_env_open(env, name, MDB_NOSUBDIR, 0644) == 0, "mdb_env_open");
  must(mdb_txn_begin(env, NULL, 0, &txn) == 0 && mdb_dbi_open(txn, NULL, 0, &dbi) == 0 && mdb_txn_commit(txn) == 0, "mdb_dbi_open");
}
static void begin(int list) { must(mdb_txn_begin(env, NULL, 0, &txn) == 0, "mdb_txn_begin"), (void)list; }
static void commit(int list) { must(mdb_txn_commit(txn) == 0, "mdb_txn_commit"), (void)list; }
static void load_begin(void) { begin(1); }
static void load_end(void) { commit(1); }
static void put(long number, const char *value) {
  char text[KEY];
  MDB_val key = {KEY, text}, bytes = {VALUE, (void *)value};
  spell_key(text, number);
  must(mdb_put(txn, dbi, &key, &bytes, 0) == 0, "mdb_put");
}
static long count(void) {
  MDB_stat found;
  begin(1);
  must(mdb_stat(txn, dbi, &found) == 0, "mdb_stat");
  mdb_txn_abort(txn);
  return (long)found.ms_entries;
}
static void close_it(void) { mdb_env_close(env); }
static const char *version(void) {
  static char text[32];
  snprintf(text, sizeof text, "%d.%d.%d", MDB_VERSION_MAJOR, MDB_VERSION_MINOR, MDB_VERSION_PATCH);
  return text;
}

#endif

static long carry_out(struct order o) {
  char value[VALUE];
  long puts = 0;
  double stop = now() + o.seconds;
  do {
    begin(o.list);
    for (int i = 0; i < o.list; i++) {
      spell_value(value);
      put(draw(o.is_new), value);
    }
    commit(o.list);
    puts += o.list;
  } while (now() < stop);
  return puts;
}

int main(int argc, char **argv) {
  char value[VALUE];
  must(argc == 3, "puts FILE HELD");
  held = atol(argv[2]);
  open_it(argv[1]);
  load_begin();
  for (long i = 0; i < held; i++) {
    spell_value(value);
    put(draw(1), value);
  }
  load_end();
  serve_orders(version());
  close_it();
  return 0;
}
