// The orders of bench/tables on a table of rows: tables FILE durable|loose. The one that is compiled in is CABINET (Tokyo Cabinet's table) or SQLITE (a table with two indexes, and an index of tokens by FTS5).
//
// It says `ready VERSION SECONDS` once the file is open, and answers each order with the seconds that it took:
// `load FIRST COUNT LIST` puts new rows in commits of so many, `over COUNT HELD` puts held rows with other numbers, a commit each, `gets COUNT HELD` gets held rows,
// `names COUNT HELD` finds held rows by their names, `numbers COUNT HELD MOST` finds as many rows by their numbers, `words COUNT HELD` finds ten rows by a token, `scans COUNT HELD` finds ten rows by a
// part of a column that has no index, `firsts COUNT HELD MOST` finds the first ten by name of as many rows by their numbers, `least COUNT` finds the ten rows with the least numbers, and `count` says how
// many rows there are.
#include <stdint.h>
#include <stdio.h>
#include <stdlib.h>
#include <string.h>
#include <time.h>

enum { KEY = 16, TEN = 10 };

static void must(int holds, const char *what) {
  if (holds) return;
  fprintf(stderr, "tables: %s\n", what);
  exit(1);
}

static double now(void) {
  struct timespec t;
  clock_gettime(CLOCK_MONOTONIC, &t);
  return (double)t.tv_sec + (double)t.tv_nsec / 1e9;
}

struct row {
  char key[KEY + 1], name[KEY + 1], number[24], words[40], text[40];
};

// Different numbers have different keys and names, which lie scattered; ten have the same token and part.
static void spell(struct row *at, long of, long number) {
  snprintf(at->key, sizeof at->key, "%016llx", (unsigned long long)of * 6364136223846793005u);
  snprintf(at->name, sizeof at->name, "%016llx", (unsigned long long)of * 2862933555777941757u);
  snprintf(at->number, sizeof at->number, "%ld", number);
  snprintf(at->words, sizeof at->words, "w%ld, red", of / TEN);
  snprintf(at->text, sizeof at->text, "part %ld of many", of / TEN);
}

static long draw(long held) {
  static uint64_t seed = 88172645463325252u;
  seed ^= seed << 13, seed ^= seed >> 7, seed ^= seed << 17;
  return (long)(seed % (uint64_t)held);
}

static void open_it(const char *name, int durable);
static void close_it(void);
static void begin(void);
static void commit(void);
static void put(const struct row *row);
static long get(const char *key);
static long by_name(const char *name);
static long by_number(long first, long last);
static long by_word(const char *word);
static long by_part(const char *part);
static long first_by_name(long first, long last);
static long least_numbers(void);
static long count(void);
static const char *version(void);

#if defined CABINET
#include <tctdb.h>
static TCTDB *db;

static void open_it(const char *name, int durable) {
  db = tctdbnew();
  must(tctdbopen(db, name, TDBOWRITER | TDBOCREAT | (durable ? TDBOTSYNC : 0)), "tctdbopen");
  must(tctdbsetindex(db, "name", TDBITLEXICAL | TDBITKEEP) || tctdbecode(db) == TCEKEEP, "tctdbsetindex");
  must(tctdbsetindex(db, "n", TDBITDECIMAL | TDBITKEEP) || tctdbecode(db) == TCEKEEP, "tctdbsetindex");
  must(tctdbsetindex(db, "words", TDBITTOKEN | TDBITKEEP) || tctdbecode(db) == TCEKEEP, "tctdbsetindex");
}
static void close_it(void) { must(tctdbclose(db), "tctdbclose"); }
static void begin(void) { must(tctdbtranbegin(db), "tctdbtranbegin"); }
static void commit(void) { must(tctdbtrancommit(db), "tctdbtrancommit"); }
static void put(const struct row *row) {
  TCMAP *columns = tcmapnew2(8);
  tcmapput2(columns, "name", row->name), tcmapput2(columns, "n", row->number), tcmapput2(columns, "words", row->words), tcmapput2(columns, "text", row->text);
  must(tctdbput(db, row->key, KEY, columns), "tctdbput");
  tcmapdel(columns);
}
static long get(const char *key) {
  TCMAP *columns = tctdbget(db, key, KEY);
  must(columns != NULL, "tctdbget");
  long found = (long)tcmaprnum(columns);
  tcmapdel(columns);
  return found;
}
// The rows that meet a condition, or all where there is no column; the first ten in an order where there is one.
static long found_by(const char *column, int operator, const char *expression, const char *order, int way) {
  TDBQRY *query = tctdbqrynew(db);
  if (column) tctdbqryaddcond(query, column, operator, expression);
  if (order) tctdbqrysetorder(query, order, way), tctdbqrysetlimit(query, TEN, 0);
  TCLIST *keys = tctdbqrysearch(query);
  long found = tclistnum(keys);
  tclistdel(keys), tctdbqrydel(query);
  return found;
}
static long by_name(const char *name) { return found_by("name", TDBQCSTREQ, name, NULL, 0); }
static long between(long first, long last, const char *order) {
  char text[64];
  snprintf(text, sizeof text, "%ld %ld", first, last);
  return found_by("n", TDBQCNUMBT, text, order, TDBQOSTRASC);
}
static long by_number(long first, long last) { return between(first, last, NULL); }
static long by_word(const char *word) { return found_by("words", TDBQCSTRAND, word, NULL, 0); }
static long by_part(const char *part) { return found_by("text", TDBQCSTRINC, part, NULL, 0); }
static long first_by_name(long first, long last) { return between(first, last, "name"); }
static long least_numbers(void) { return found_by(NULL, 0, NULL, "n", TDBQONUMASC); }
static long count(void) { return (long)tctdbrnum(db); }
static const char *version(void) { return tcversion; }

#elif defined SQLITE
#include <sqlite3.h>
static sqlite3 *db;
static sqlite3_stmt *insert, *one, *named, *numbered, *worded, *parted, *firsts, *leasts;

static void run(const char *text) { must(sqlite3_exec(db, text, NULL, NULL, NULL) == SQLITE_OK, sqlite3_errmsg(db)); }
static sqlite3_stmt *prepared(const char *text) {
  sqlite3_stmt *it;
  must(sqlite3_prepare_v2(db, text, -1, &it, NULL) == SQLITE_OK, sqlite3_errmsg(db));
  return it;
}
static void open_it(const char *name, int durable) {
  must(sqlite3_open(name, &db) == SQLITE_OK, "sqlite3_open");
  run("PRAGMA journal_mode = WAL");
  run(durable ? "PRAGMA synchronous = FULL" : "PRAGMA synchronous = OFF");
  run("CREATE TABLE IF NOT EXISTS rows (id INTEGER PRIMARY KEY, key TEXT UNIQUE, name TEXT, n INTEGER, words TEXT, text TEXT)");
  run("CREATE INDEX IF NOT EXISTS names ON rows (name)");
  run("CREATE INDEX IF NOT EXISTS numbers ON rows (n)");
  // the index of tokens has no copy of the texts
  run("CREATE VIRTUAL TABLE IF NOT EXISTS tokens USING fts5(words, content = 'rows', content_rowid = 'id')");
  run("CREATE TRIGGER IF NOT EXISTS put AFTER INSERT ON rows BEGIN INSERT INTO tokens (rowid, words) VALUES (new.id, new.words); END");
  run("CREATE TRIGGER IF NOT EXISTS over AFTER UPDATE ON rows BEGIN INSERT INTO tokens (tokens, rowid, words) VALUES ('delete', old.id, old.words);"
      " INSERT INTO tokens (rowid, words) VALUES (new.id, new.words); END");
  insert = prepared("INSERT INTO rows (key, name, n, words, text) VALUES (?1, ?2, ?3, ?4, ?5)"
                    " ON CONFLICT (key) DO UPDATE SET name = excluded.name, n = excluded.n, words = excluded.words, text = excluded.text");
  one = prepared("SELECT name, n, words, text FROM rows WHERE key = ?1");
  named = prepared("SELECT key FROM rows WHERE name = ?1 ORDER BY key");
  numbered = prepared("SELECT key FROM rows WHERE n BETWEEN ?1 AND ?2 ORDER BY key");
  worded = prepared("SELECT key FROM rows WHERE id IN (SELECT rowid FROM tokens WHERE tokens MATCH ?1) ORDER BY key");
  parted = prepared("SELECT key FROM rows WHERE instr(text, ?1) ORDER BY key");
  firsts = prepared("SELECT key FROM rows WHERE n BETWEEN ?1 AND ?2 ORDER BY name, key LIMIT 10");
  leasts = prepared("SELECT key FROM rows ORDER BY n, key LIMIT 10");
}
static void close_it(void) {
  sqlite3_stmt *all[] = {insert, one, named, numbered, worded, parted, firsts, leasts};
  for (size_t i = 0; i < sizeof all / sizeof *all; i++) sqlite3_finalize(all[i]);
  must(sqlite3_close(db) == SQLITE_OK, "sqlite3_close");
}
static void begin(void) { run("BEGIN"); }
static void commit(void) { run("COMMIT"); }
static void put(const struct row *row) {
  sqlite3_bind_text(insert, 1, row->key, -1, SQLITE_STATIC), sqlite3_bind_text(insert, 2, row->name, -1, SQLITE_STATIC);
  sqlite3_bind_int64(insert, 3, atol(row->number));
  sqlite3_bind_text(insert, 4, row->words, -1, SQLITE_STATIC), sqlite3_bind_text(insert, 5, row->text, -1, SQLITE_STATIC);
  must(sqlite3_step(insert) == SQLITE_DONE && sqlite3_reset(insert) == SQLITE_OK, "insert");
}
static long get(const char *key) {
  sqlite3_bind_text(one, 1, key, -1, SQLITE_STATIC);
  must(sqlite3_step(one) == SQLITE_ROW, "get");
  long found = (sqlite3_column_text(one, 0) != NULL) + 1 + (sqlite3_column_text(one, 2) != NULL) + (sqlite3_column_text(one, 3) != NULL);
  sqlite3_reset(one);
  return found;
}
static long rows_of(sqlite3_stmt *it) {
  long found = 0;
  while (sqlite3_step(it) == SQLITE_ROW) found += sqlite3_column_text(it, 0) != NULL;
  sqlite3_reset(it);
  return found;
}
static long of_text(sqlite3_stmt *it, const char *text) {
  sqlite3_bind_text(it, 1, text, -1, SQLITE_STATIC);
  return rows_of(it);
}
static long between(sqlite3_stmt *it, long first, long last) {
  sqlite3_bind_int64(it, 1, first), sqlite3_bind_int64(it, 2, last);
  return rows_of(it);
}
static long by_name(const char *name) { return of_text(named, name); }
static long by_number(long first, long last) { return between(numbered, first, last); }
static long by_word(const char *word) { return of_text(worded, word); }
static long by_part(const char *part) { return of_text(parted, part); }
static long first_by_name(long first, long last) { return between(firsts, first, last); }
static long least_numbers(void) { return rows_of(leasts); }
static long count(void) {
  sqlite3_stmt *all = prepared("SELECT count(*) FROM rows");
  must(sqlite3_step(all) == SQLITE_ROW, "count");
  long found = (long)sqlite3_column_int64(all, 0);
  sqlite3_finalize(all);
  return found;
}
static const char *version(void) { return sqlite3_libversion(); }

#endif

static void carry_out(const char *what, long a, long b, long c) {
  struct row row;
  if (strcmp(what, "load") == 0) {
    for (long done = 0; done < b; done += c) {
      begin();
      for (long i = done; i < b && i < done + c; i++) spell(&row, a + i, a + i), put(&row);
      commit();
    }
  } else if (strcmp(what, "over") == 0) {
    for (long i = 0; i < a; i++) {
      spell(&row, draw(b), 1000000000 + i);
      begin(), put(&row), commit();
    }
  } else if (strcmp(what, "gets") == 0) {
    for (long i = 0; i < a; i++) {
      spell(&row, draw(b), 0);
      must(get(row.key) == 4, "a row of other columns");
    }
  } else if (strcmp(what, "names") == 0) {
    for (long i = 0; i < a; i++) {
      spell(&row, draw(b), 0);
      must(by_name(row.name) == 1, "a name of other rows");
    }
  } else if (strcmp(what, "numbers") == 0) {
    for (long i = 0; i < a; i++) {
      long first = draw(b - c);
      must(by_number(first, first + c - 1) == c, "numbers of other rows");
    }
  } else if (strcmp(what, "words") == 0) {
    for (long i = 0; i < a; i++) {
      spell(&row, draw(b), 0);
      *strchr(row.words, ',') = 0;
      must(by_word(row.words) == TEN, "a word of other rows");
    }
  } else if (strcmp(what, "scans") == 0) {
    for (long i = 0; i < a; i++) {
      char part[40];
      snprintf(part, sizeof part, "part %ld of", draw(b / TEN));
      must(by_part(part) == TEN, "a part of other rows");
    }
  } else if (strcmp(what, "firsts") == 0) {
    for (long i = 0; i < a; i++) {
      long first = draw(b - c);
      must(first_by_name(first, first + c - 1) == TEN, "first names of other rows");
    }
  } else if (strcmp(what, "least") == 0) {
    for (long i = 0; i < a; i++) must(least_numbers() == TEN, "least numbers of other rows");
  } else {
    must(0, what);
  }
}

int main(int argc, char **argv) {
  char line[256], what[16];
  must(argc == 3, "tables FILE durable|loose");
  double start = now();
  open_it(argv[1], strcmp(argv[2], "durable") == 0);
  printf("ready %s %.6f\n", version(), now() - start), fflush(stdout);
  while (fgets(line, sizeof line, stdin)) {
    long a = 0, b = 0, c = 0;
    must(sscanf(line, "%15s %ld %ld %ld", what, &a, &b, &c) >= 1, line);
    if (strcmp(what, "count") == 0) {
      printf("%ld\n", count());
    } else {
      start = now();
      carry_out(what, a, b, c);
      printf("%.6f\n", now() - start);
    }
    fflush(stdout);
  }
  close_it();
  return 0;
}
