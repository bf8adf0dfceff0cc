/* The requests of `tokyo drill SEED COUNT` on a database of Tokyo Cabinet, and the same line: drill SEED COUNT NAME, whose name is *, + or one in .tch, .tcb, .tcf or .tct. In files each hundred of
   them, and the rest, are a transaction, synced. A row has the value in its column v. */
#include <stdbool.h>
#include <stdint.h>
#include <stdio.h>
#include <stdlib.h>
#include <string.h>
#include <tcbdb.h>
#include <tcfdb.h>
#include <tchdb.h>
#include <tctdb.h>
#include <tcutil.h>

static TCMDB *map;
static TCNDB *tree;
static TCHDB *hash;
static TCBDB *pages;
static TCFDB *fixed;
static TCTDB *table;

static bool make_row(int deed, const char *key, int k, const char *value, int v) {
  if (deed == 3) return tctdbout(table, key, k);
  TCMAP *row = tcmapnew2(1);
  tcmapput(row, "v", 1, value, v);
  bool done = deed == 2 ? tctdbputcat(table, key, k, row) : tctdbput(table, key, k, row);
  tcmapdel(row);
  return done;
}

/* Deed 0 and 1 put, 2 joins behind, 3 takes out. Answers whether it was done. */
static bool make(int deed, const char *key, int k, const char *value, int v) {
  if (map) {
    if (deed == 3) return tcmdbout(map, key, k);
    deed == 2 ? tcmdbputcat(map, key, k, value, v) : tcmdbput(map, key, k, value, v);
    return true;
  }
  if (tree) {
    if (deed == 3) return tcndbout(tree, key, k);
    deed == 2 ? tcndbputcat(tree, key, k, value, v) : tcndbput(tree, key, k, value, v);
    return true;
  }
  if (table) return make_row(deed, key, k, value, v);
  if (hash) return deed == 3 ? tchdbout(hash, key, k) : deed == 2 ? tchdbputcat(hash, key, k, value, v) : tchdbput(hash, key, k, value, v);
  if (pages) return deed == 3 ? tcbdbout(pages, key, k) : deed == 2 ? tcbdbputcat(pages, key, k, value, v) : tcbdbput(pages, key, k, value, v);
  return deed == 3 ? tcfdbout2(fixed, key, k) : deed == 2 ? tcfdbputcat2(fixed, key, k, value, v) : tcfdbput2(fixed, key, k, value, v);
}

static void begin(void) {
  if ((hash && !tchdbtranbegin(hash)) || (pages && !tcbdbtranbegin(pages)) || (fixed && !tcfdbtranbegin(fixed)) || (table && !tctdbtranbegin(table))) exit(3);
}

static void commit(void) {
  if ((hash && !tchdbtrancommit(hash)) || (pages && !tcbdbtrancommit(pages)) || (fixed && !tcfdbtrancommit(fixed)) || (table && !tctdbtrancommit(table))) exit(4);
}

/* The bytes of all pairs of a tree in a file. */
static uint64_t size_of_pages(void) {
  uint64_t all = 0;
  int k, v;
  BDBCUR *cursor = tcbdbcurnew(pages);
  for (bool more = tcbdbcurfirst(cursor); more; more = tcbdbcurnext(cursor)) {
    if (!tcbdbcurkey3(cursor, &k) || !tcbdbcurval3(cursor, &v)) exit(5);
    all += k + v;
  }
  tcbdbcurdel(cursor);
  return all;
}

/* The bytes of all keys, of the column's name in each row, and of all values. */
static uint64_t size_of_rows(void) {
  uint64_t all = 0;
  void *key;
  int k, v;
  tctdbiterinit(table);
  while ((key = tctdbiternext(table, &k)) != NULL) {
    char *value = tctdbget4(table, key, k, "v", 1, &v);
    if (!value) exit(5);
    all += k + 1 + v;
    free(value);
    free(key);
  }
  return all;
}

/* The bytes of all keys and values. */
static uint64_t size(void) {
  uint64_t all = 0;
  void *key;
  int k, v;
  if (pages) return size_of_pages();
  if (table) return size_of_rows();
  if (map) tcmdbiterinit(map);
  if (tree) tcndbiterinit(tree);
  if (hash) tchdbiterinit(hash);
  if (fixed) tcfdbiterinit(fixed);
  while ((key = map ? tcmdbiternext(map, &k) : tree ? tcndbiternext(tree, &k) : hash ? tchdbiternext(hash, &k) : tcfdbiternext2(fixed, &k)) != NULL) {
    void *value = map ? tcmdbget(map, key, k, &v) : tree ? tcndbget(tree, key, k, &v) : hash ? tchdbget(hash, key, k, &v) : tcfdbget2(fixed, key, k, &v);
    if (!value) exit(5);
    all += k + v;
    free(key);
    free(value);
  }
  return all;
}

static uint64_t records(void) { return map ? tcmdbrnum(map) : tree ? tcndbrnum(tree) : hash ? tchdbrnum(hash) : pages ? tcbdbrnum(pages) : table ? tctdbrnum(table) : tcfdbrnum(fixed); }

static bool opened(const char *name) {
  if (!strcmp(name, "*")) return (map = tcmdbnew()) != NULL;
  if (!strcmp(name, "+")) return (tree = tcndbnew()) != NULL;
  if (strstr(name, ".tch")) return (hash = tchdbnew()) && tchdbopen(hash, name, HDBOWRITER | HDBOCREAT | HDBOTRUNC | HDBOTSYNC);
  if (strstr(name, ".tcb")) return (pages = tcbdbnew()) && tcbdbopen(pages, name, BDBOWRITER | BDBOCREAT | BDBOTRUNC | BDBOTSYNC);
  if (strstr(name, ".tct")) return (table = tctdbnew()) && tctdbopen(table, name, TDBOWRITER | TDBOCREAT | TDBOTRUNC | TDBOTSYNC);
  return (fixed = tcfdbnew()) && tcfdbopen(fixed, name, FDBOWRITER | FDBOCREAT | FDBOTRUNC | FDBOTSYNC);
}

int main(int argc, char **argv) {
  if (argc != 4 || !opened(argv[3])) return 1;
  uint64_t x = strtoull(argv[1], NULL, 10), count = strtoull(argv[2], NULL, 10), ok = 0;
  for (uint64_t i = 0; i < count; i++) {
    char key[8], value[16];
    x = x * UINT64_C(6364136223846793005) + UINT64_C(1442695040888963407);
    int k = sprintf(key, "%d", (int)(1 + (x >> 33) % 1000)), v = sprintf(value, "%d", (int)(x >> 44));
    if (i % 100 == 0) begin();
    ok += make((x >> 20) % 4, key, k, value, v);
    if (i % 100 == 99 || i + 1 == count) commit();
  }
  printf("requests %llu ok %llu refused %llu records %llu size %llu\n", (unsigned long long)count, (unsigned long long)ok, (unsigned long long)(count - ok), (unsigned long long)records(), (unsigned long long)size());
  return (hash && !tchdbclose(hash)) || (pages && !tcbdbclose(pages)) || (fixed && !tcfdbclose(fixed)) || (table && !tctdbclose(table)) ? 6 : 0;
}
