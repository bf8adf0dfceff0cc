/* The requests of bench/stream (put, get, half, hits, fill, ranges) on Tokyo Cabinet's tree in memory, and putdup (dups), which that one doesn't have, on its B+ tree in the file
   that is named, never synced. */
#include <stdint.h>
#include <stdio.h>
#include <stdlib.h>
#include <string.h>
#include <tcadb.h>
#include <tcbdb.h>

static unsigned size_at(const char *at) {
  const unsigned char *b = (const unsigned char *)at;
  return (unsigned)b[0] << 24 | b[1] << 16 | b[2] << 8 | b[3];
}

static char *read_all(size_t *length) {
  char *input = NULL;
  size_t room = 0, got;
  *length = 0;
  do {
    if (*length == room) input = realloc(input, room = room ? room * 2 : 1 << 20);
    got = fread(input + *length, 1, room - *length, stdin);
    *length += got;
  } while (got > 0);
  return input;
}

/* A misc request of two arguments: a range, or a pair to be added. Answers the place behind it. */
static const char *call(TCADB *memory, TCBDB *file, const char *at) {
  unsigned name = size_at(at + 2);
  const char *first = at + 14 + name;
  unsigned k = size_at(first), v = size_at(first + 4 + k);
  const char *second = first + 8 + k;
  if (memcmp(at + 14, "putdup", name) == 0) {
    if (!tcbdbputdup(file, first + 4, k, second, v)) exit(3);
  } else {
    TCLIST *args = tclistnew2(2), *found;
    tclistpush(args, first + 4, k);
    tclistpush(args, second, v);
    found = tcadbmisc(memory, "range", args);
    if (!found) exit(4);
    tclistdel(found);
    tclistdel(args);
  }
  return second + v;
}

int main(int argc, char **argv) {
  TCADB *memory = tcadbnew();
  TCBDB *file = tcbdbnew();
  size_t length;
  char *input = read_all(&length);
  if (argc != 2 || !tcadbopen(memory, "+")) return 1;
  if (!tcbdbopen(file, argv[1], BDBOWRITER | BDBOCREAT | BDBOTRUNC)) return 2;
  for (const char *at = input; at < input + length;) {
    unsigned k = size_at(at + 2);
    if (at[1] == 0x10) {
      unsigned v = size_at(at + 6);
      if (!tcadbput(memory, at + 10, k, at + 10 + k, v)) return 3;
      at += 10 + k + v;
    } else if (at[1] == 0x30) {
      int size;
      free(tcadbget(memory, at + 6, k, &size));
      at += 6 + k;
    } else {
      at = call(memory, file, at);
    }
  }
  fflush(stdout);
  _Exit(0);
}
