/* The requests of bench/stream (ids, found, over) on Tokyo Cabinet's fixed-length database: each put is a transaction, synced. */
#include <stdint.h>
#include <stdio.h>
#include <stdlib.h>
#include <tcfdb.h>

static unsigned size_at(const char *at) {
  const unsigned char *b = (const unsigned char *)at;
  return (unsigned)b[0] << 24 | b[1] << 16 | b[2] << 8 | b[3];
}

int main(int argc, char **argv) {
  TCFDB *db = tcfdbnew();
  char *input = NULL;
  size_t long_ = 0, room = 0, got;
  if (argc != 2) return 1;
  do {
    if (long_ == room) input = realloc(input, room = room ? room * 2 : 1 << 20);
    got = fread(input + long_, 1, room - long_, stdin);
    long_ += got;
  } while (got > 0);
  tcfdbtune(db, 255, 268435456);
  if (!tcfdbopen(db, argv[1], FDBOWRITER | FDBOCREAT | FDBOTSYNC)) return 2;
  for (size_t at = 0; at < long_;) {
    unsigned k = size_at(input + at + 2);
    if (input[at + 1] == 0x10) {
      unsigned v = size_at(input + at + 6);
      if (!tcfdbtranbegin(db) || !tcfdbput2(db, input + at + 10, k, input + at + 10 + k, v) || !tcfdbtrancommit(db)) return 3;
      at += 10 + k + v;
    } else {
      int size;
      void *found = tcfdbget2(db, input + at + 6, k, &size);
      if (!found) return 4;
      free(found);
      at += 6 + k;
    }
  }
  return tcfdbclose(db) ? 0 : 6;
}
