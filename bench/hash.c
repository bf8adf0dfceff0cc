/* The requests of bench/stream (keys, loads, warm, anew, outs) on Tokyo Cabinet's hash database: each put, and each list of them, is a transaction, synced. With a second word, instead:
   `optimize` writes the file anew with the buckets, the unit and the pool that it had by default, and brings it to the disk; `held` prints how many records it has. */
#include <stdint.h>
#include <stdio.h>
#include <stdlib.h>
#include <string.h>
#include <tchdb.h>

static unsigned size_at(const char *at) {
  const unsigned char *b = (const unsigned char *)at;
  return (unsigned)b[0] << 24 | b[1] << 16 | b[2] << 8 | b[3];
}

static char *read_all(size_t *length) {
  char *input = NULL;
  size_t room = 0, got;
  *length = 0;
  do {
    if (*length == room) input = realloc(input, room = room ? room * 2 : 1 << 20);
    got = fread(input + *length, 1, room - *length, stdin);
    *length += got;
  } while (got > 0);
  return input;
}

/* Puts the pairs of a putlist, or takes out the keys of an outlist, and answers the place behind it. */
static const char *change_list(TCHDB *db, const char *at) {
  unsigned name = size_at(at + 2), count = size_at(at + 10);
  int outs = memcmp(at + 14, "outlist", name) == 0;
  at += 14 + name;
  for (unsigned i = 0; i < count; i += outs ? 1 : 2) {
    unsigned k = size_at(at), v = outs ? 0 : size_at(at + 4 + k);
    if (outs ? !tchdbout(db, at + 4, k) : !tchdbput(db, at + 4, k, at + 8 + k, v)) exit(3);
    at += outs ? 4 + k : 8 + k + v;
  }
  return at;
}

static const char *change(TCHDB *db, const char *at) {
  if (!tchdbtranbegin(db)) exit(3);
  if (at[1] == 0x10) {
    unsigned k = size_at(at + 2), v = size_at(at + 6);
    if (!tchdbput(db, at + 10, k, at + 10 + k, v)) exit(3);
    at += 10 + k + v;
  } else {
    at = change_list(db, at);
  }
  if (!tchdbtrancommit(db)) exit(3);
  return at;
}

static const char *get(TCHDB *db, const char *at) {
  unsigned k = size_at(at + 2);
  int size;
  void *found = tchdbget(db, at + 6, k, &size);
  if (!found) exit(4);
  free(found);
  return at + 6 + k;
}

static void serve(TCHDB *db) {
  size_t length;
  const char *input = read_all(&length);
  for (const char *at = input; at < input + length;) at = at[1] == 0x30 ? get(db, at) : change(db, at);
}

int main(int argc, char **argv) {
  TCHDB *db = tchdbnew();
  if (argc != 2 && argc != 3) return 1;
  if (!tchdbopen(db, argv[1], HDBOWRITER | HDBOCREAT | HDBOTSYNC)) return 2;
  if (argc == 2) {
    serve(db);
  } else if (strcmp(argv[2], "optimize") == 0) {
    if (!tchdboptimize(db, 131071, 4, 10, UINT8_MAX) || !tchdbsync(db)) return 5;
  } else if (strcmp(argv[2], "held") == 0) {
    printf("%llu\n", (unsigned long long)tchdbrnum(db));
  } else {
    return 1;
  }
  return tchdbclose(db) ? 0 : 6;
}
