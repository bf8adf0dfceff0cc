// The orders of bench/ordered on a database of pairs in order: ordered FILE durable|loose. The one that is compiled in is CABINET (Tokyo Cabinet's B+ tree), SQLITE (a table WITHOUT ROWID) or LMDB.
//
// It says `ready VERSION SECONDS` once the file is open, and answers each order with the seconds that it took:
// `load FIRST COUNT LIST` puts new keys in commits of so many, `over COUNT HELD` puts held keys, a commit each, `dups COUNT HELD` adds a value to held keys, a commit each,
// `gets COUNT HELD` gets held keys, `ranges COUNT HELD MOST` gets as many pairs from a held key on, and `count` says how many pairs there are.
#include <stdint.h>
#include <stdio.h>
#include <stdlib.h>
#include <string.h>
#include <time.h>

enum { KEY = 16, VALUE = 64 };

static void must(int holds, const char *what) {
  if (holds) return;
  fprintf(stderr, "ordered: %s\n", what);
  exit(1);
}

static double now(void) {
  struct timespec t;
  clock_gettime(CLOCK_MONOTONIC, &t);
  return (double)t.tv_sec + (double)t.tv_nsec / 1e9;
}

// Different numbers have different keys, which lie scattered.
static void spell_key(char *at, long number) {
  char text[KEY + 1];
  snprintf(text, sizeof text, "%016llx", (unsigned long long)number * 6364136223846793005u);
  memcpy(at, text, KEY);
}

static void spell_value(char *at) {
  static unsigned long long turn;
  char text[17];
  snprintf(text, sizeof text, "%016llx", ++turn);
  for (int i = 0; i < VALUE; i += 16) memcpy(at + i, text, 16);
}

static long draw(long held) {
  static uint64_t seed = 88172645463325252u;
  seed ^= seed << 13, seed ^= seed >> 7, seed ^= seed << 17;
  return (long)(seed % (uint64_t)held);
}

static void open_it(const char *name, int durable);
static void close_it(void);
static void begin(void);
static void commit(void);
static void put(const char *key, const char *value);
static void put_dup(const char *key, const char *value);
static long get(const char *key);
static long range(const char *key, long most);
static long count(void);
static const char *version(void);

#if defined CABINET
#include <tcbdb.h>
static TCBDB *db;
static BDBCUR *cursor;

static void open_it(const char *name, int durable) {
  db = tcbdbnew();
  must(tcbdbopen(db, name, BDBOWRITER | BDBOCREAT | (durable ? BDBOTSYNC : 0)), "tcbdbopen");
  cursor = tcbdbcurnew(db);
}
static void close_it(void) { tcbdbcurdel(cursor), must(tcbdbclose(db), "tcbdbclose"); }
static void begin(void) { must(tcbdbtranbegin(db), "tcbdbtranbegin"); }
static void commit(void) { must(tcbdbtrancommit(db), "tcbdbtrancommit"); }
static void put(const char *key, const char *value) { must(tcbdbput(db, key, KEY, value, VALUE), "tcbdbput"); }
static void put_dup(const char *key, const char *value) { must(tcbdbputdup(db, key, KEY, value, VALUE), "tcbdbputdup"); }
static long get(const char *key) {
  int size;
  void *found = tcbdbget(db, key, KEY, &size);
  must(found != NULL, "tcbdbget");
  free(found);
  return size;
}
static long range(const char *key, long most) {
  long given = 0;
  int k, v;
  if (!tcbdbcurjump(cursor, key, KEY)) return 0;
  do {
    must(tcbdbcurkey3(cursor, &k) != NULL && tcbdbcurval3(cursor, &v) != NULL, "tcbdbcurkey3");
    given++;
  } while (given < most && tcbdbcurnext(cursor));
  return given;
}
static long count(void) { return (long)tcbdbrnum(db); }
static const char *version(void) { return tcversion; }

#elif defined SQLITE
#include <sqlite3.h>
static sqlite3 *db;
static sqlite3_stmt *insert, *add, *one, *some;

static void run(const char *text) { must(sqlite3_exec(db, text, NULL, NULL, NULL) == SQLITE_OK, sqlite3_errmsg(db)); }
static sqlite3_stmt *prepared(const char *text) {
  sqlite3_stmt *it;
  must(sqlite3_prepare_v2(db, text, -1, &it, NULL) == SQLITE_OK, sqlite3_errmsg(db));
  return it;
}
static void open_it(const char *name, int durable) {
  must(sqlite3_open(name, &db) == SQLITE_OK, "sqlite3_open");
  run("PRAGMA journal_mode = WAL");
  run(durable ? "PRAGMA synchronous = FULL" : "PRAGMA synchronous = OFF");
  run("CREATE TABLE IF NOT EXISTS pairs (key BLOB, number INTEGER, value BLOB, PRIMARY KEY (key, number)) WITHOUT ROWID");
  insert = prepared("INSERT OR REPLACE INTO pairs VALUES (?1, 0, ?2)");
  add = prepared("INSERT INTO pairs VALUES (?1, (SELECT max(number) + 1 FROM pairs WHERE key = ?1), ?2)");
  one = prepared("SELECT value FROM pairs WHERE key = ?1 LIMIT 1");
  some = prepared("SELECT key, value FROM pairs WHERE key >= ?1 ORDER BY key, number LIMIT ?2");
}
static void close_it(void) {
  sqlite3_finalize(insert), sqlite3_finalize(add), sqlite3_finalize(one), sqlite3_finalize(some);
  must(sqlite3_close(db) == SQLITE_OK, "sqlite3_close");
}
static void begin(void) { run("BEGIN"); }
static void commit(void) { run("COMMIT"); }
static void bound(sqlite3_stmt *it, const char *key, const char *value) {
  sqlite3_bind_blob(it, 1, key, KEY, SQLITE_STATIC);
  if (value) sqlite3_bind_blob(it, 2, value, VALUE, SQLITE_STATIC);
}
static void put(const char *key, const char *value) {
  bound(insert, key, value);
  must(sqlite3_step(insert) == SQLITE_DONE && sqlite3_reset(insert) == SQLITE_OK, "insert");
}
static void put_dup(const char *key, const char *value) {
  bound(add, key, value);
  must(sqlite3_step(add) == SQLITE_DONE && sqlite3_reset(add) == SQLITE_OK, "add");
}
static long get(const char *key) {
  bound(one, key, NULL);
  must(sqlite3_step(one) == SQLITE_ROW, "get");
  long size = sqlite3_column_bytes(one, 0);
  sqlite3_reset(one);
  return size;
}
static long range(const char *key, long most) {
  long given = 0;
  bound(some, key, NULL);
  sqlite3_bind_int64(some, 2, most);
  while (sqlite3_step(some) == SQLITE_ROW) given += sqlite3_column_blob(some, 1) != NULL;
  sqlite3_reset(some);
  return given;
}
static long count(void) {
  sqlite3_stmt *all = prepared("SELECT count(*) FROM pairs");
  must(sqlite3_step(all) == SQLITE_ROW, "count");
  long found = (long)sqlite3_column_int64(all, 0);
  sqlite3_finalize(all);
  return found;
}
static const char *version(void) { return sqlite3_libversion(); }

#elif defined LMDB
#include <lmdb.h>
static MDB_env *env;
static MDB_txn *txn;
static MDB_dbi dbi;

static void open_it(const char *name, int durable) {
  must(mdb_env_create(&env) == 0 && mdb_env_set_mapsize(env, (size_t)8 << 30) == 0, "mdb_env_create");
  must(mdb_env_open(env, name, MDB_NOSUBDIR | (durable ? 0 : MDB_NOSYNC), 0644) == 0, "mdb_env_open");
  must(mdb_txn_begin(env, NULL, 0, &txn) == 0 && mdb_dbi_open(txn, NULL, MDB_DUPSORT, &dbi) == 0 && mdb_txn_commit(txn) == 0, "mdb_dbi_open");
}
static void close_it(void) { mdb_env_close(env); }
static void begin(void) { must(mdb_txn_begin(env, NULL, 0, &txn) == 0, "mdb_txn_begin"); }
static void look(void) { must(mdb_txn_begin(env, NULL, MDB_RDONLY, &txn) == 0, "mdb_txn_begin"); }
static void commit(void) { must(mdb_txn_commit(txn) == 0, "mdb_txn_commit"); }
static void put_dup(const char *key, const char *value) {
  MDB_val k = {KEY, (void *)key}, v = {VALUE, (void *)value};
  must(mdb_put(txn, dbi, &k, &v, 0) == 0, "mdb_put");
}
static void put(const char *key, const char *value) {
  MDB_val k = {KEY, (void *)key};
  int status = mdb_del(txn, dbi, &k, NULL);
  must(status == 0 || status == MDB_NOTFOUND, "mdb_del");
  put_dup(key, value);
}
static long get(const char *key) {
  MDB_val k = {KEY, (void *)key}, v;
  look();
  must(mdb_get(txn, dbi, &k, &v) == 0, "mdb_get");
  mdb_txn_abort(txn);
  return (long)v.mv_size;
}
static long range(const char *key, long most) {
  MDB_val k = {KEY, (void *)key}, v;
  MDB_cursor *cursor;
  long given = 0;
  look();
  must(mdb_cursor_open(txn, dbi, &cursor) == 0, "mdb_cursor_open");
  for (int status = mdb_cursor_get(cursor, &k, &v, MDB_SET_RANGE); status == 0 && given < most; status = mdb_cursor_get(cursor, &k, &v, MDB_NEXT)) given++;
  mdb_cursor_close(cursor);
  mdb_txn_abort(txn);
  return given;
}
static long count(void) {
  MDB_stat found;
  look();
  must(mdb_stat(txn, dbi, &found) == 0, "mdb_stat");
  mdb_txn_abort(txn);
  return (long)found.ms_entries;
}
static const char *version(void) {
  static char text[32];
  snprintf(text, sizeof text, "%d.%d.%d", MDB_VERSION_MAJOR, MDB_VERSION_MINOR, MDB_VERSION_PATCH);
  return text;
}

#endif

static void carry_out(const char *what, long a, long b, long c) {
  char key[KEY], value[VALUE];
  if (strcmp(what, "load") == 0) {
    for (long done = 0; done < b; done += c) {
      begin();
      for (long i = done; i < b && i < done + c; i++) {
        spell_key(key, a + i), spell_value(value);
        put(key, value);
      }
      commit();
    }
  } else if (strcmp(what, "over") == 0 || strcmp(what, "dups") == 0) {
    for (long i = 0; i < a; i++) {
      spell_key(key, draw(b)), spell_value(value);
      begin();
      if (what[0] == 'o') put(key, value); else put_dup(key, value);
      commit();
    }
  } else if (strcmp(what, "gets") == 0) {
    for (long i = 0; i < a; i++) {
      spell_key(key, draw(b));
      must(get(key) == VALUE, "a value of another length");
    }
  } else if (strcmp(what, "ranges") == 0) {
    for (long i = 0; i < a; i++) {
      spell_key(key, draw(b));
      must(range(key, c) > 0, "an empty range");
    }
  } else {
    must(0, what);
  }
}

int main(int argc, char **argv) {
  char line[256], what[16];
  must(argc == 3, "ordered FILE durable|loose");
  double start = now();
  open_it(argv[1], strcmp(argv[2], "durable") == 0);
  printf("ready %s %.6f\n", version(), now() - start), fflush(stdout);
  while (fgets(line, sizeof line, stdin)) {
    long a = 0, b = 0, c = 0;
    must(sscanf(line, "%15s %ld %ld %ld", what, &a, &b, &c) >= 1, line);
    if (strcmp(what, "count") == 0) {
      printf("%ld\n", count());
    } else {
      start = now();
      carry_out(what, a, b, c);
      printf("%.6f\n", now() - start);
    }
    fflush(stdout);
  }
  close_it();
  return 0;
}
