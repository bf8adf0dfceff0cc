// What both programs of bench/durable have: keys by number, values that are never twice the same, the clock, and the orders that the script writes.
//
// Each says `ready VERSION` once it holds so many keys. An order is a line `new|over LIST CLIENTS DEPTH SECONDS`: puts of new keys, or over those that were held at first, in lists of so many;
// it is answered `PUTS SECONDS`. The order `count` is answered how many records there are.
#include <stdint.h>
#include <stdio.h>
#include <stdlib.h>
#include <string.h>
#include <time.h>

enum { KEY = 16, VALUE = 64 };

static long held, next; // the keys that were there at first have the numbers below `held`, new ones those from `next` on

static void must(int holds, const char *what) {
  if (holds) return;
  perror(what);
  exit(1);
}

static double now(void) {
  struct timespec t;
  clock_gettime(CLOCK_MONOTONIC, &t);
  return (double)t.tv_sec + (double)t.tv_nsec / 1e9;
}

// A number in 16 digits. By hand, since `snprintf` takes several times as long, and what a client does between a reply and its next request counts as its server's.
static inline void spell_number(char *at, uint64_t number) {
  for (int i = 0; i < 16; i++) at[i] = "0123456789abcdef"[number >> (60 - 4 * i) & 15];
}

// Different numbers have different keys, which lie scattered.
static inline void spell_key(char *at, long number) { spell_number(at, (uint64_t)number * 6364136223846793005u); }

static void spell_value(char *at) {
  static uint64_t turn;
  spell_number(at, ++turn);
  for (int i = 16; i < VALUE; i += 16) memcpy(at + i, at, 16);
}

// The number of the next key that is put.
static long draw(int is_new) {
  static uint64_t seed = 88172645463325252u;
  if (is_new) return next++;
  seed ^= seed << 13, seed ^= seed >> 7, seed ^= seed << 17;
  return (long)(seed % (uint64_t)held);
}

struct order {
  int is_new, list, clients, depth;
  double seconds;
};

static long count(void);
static long carry_out(struct order o);

static void serve_orders(const char *version) {
  char line[256], what[16];
  printf("ready %s\n", version), fflush(stdout);
  while (fgets(line, sizeof line, stdin)) {
    struct order o;
    if (strcmp(line, "count\n") == 0) {
      printf("%ld\n", count());
    } else {
      must(sscanf(line, "%15s %d %d %d %lf", what, &o.list, &o.clients, &o.depth, &o.seconds) == 5, line);
      o.is_new = strcmp(what, "new") == 0;
      double start = now();
      long puts = carry_out(o);
      printf("%ld %.6f\n", puts, now() - start);
    }
    fflush(stdout);
  }
}
