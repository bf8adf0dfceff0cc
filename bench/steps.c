/* The steps of bench/trees (p, d, f, r, o) on Tokyo Cabinet's tree in memory, or on its B+ tree in the file that is named, never synced. */
#include <stdint.h>
#include <stdio.h>
#include <stdlib.h>
#include <string.h>
#include <tcbdb.h>
#include <tcutil.h>
#include <unistd.h>

static unsigned size_at(const unsigned char *b) {
  return (unsigned)b[0] << 24 | b[1] << 16 | b[2] << 8 | b[3];
}

static unsigned char *read_all(size_t *length) {
  unsigned char *input = NULL;
  size_t room = 0, got;
  *length = 0;
  do {
    if (*length == room) input = realloc(input, room = room ? room * 2 : 1 << 20);
    got = fread(input + *length, 1, room - *length, stdin);
    *length += got;
  } while (got > 0);
  return input;
}

static void in_memory(TCTREE *tree, int kind, unsigned number, const unsigned char *key, unsigned k, const unsigned char *value, unsigned v, size_t *seen) {
  int size;
  const void *found;
  switch (kind) {
    case 'p': tctreeput(tree, key, k, value, v); break;
    case 'o': tctreeout(tree, key, k); break;
    case 'f':
      if ((found = tctreeget(tree, key, k, &size))) *seen += size;
      break;
    case 'r':
      tctreeiterinit2(tree, key, k);
      for (unsigned i = 0; i < number && (found = tctreeiternext(tree, &size)); i++) {
        const char *text = found;
        int held;
        char *copy = tcmemdup(text, size);
        *seen += size;
        text = tctreeiterval(found, &held);
        char *copied = tcmemdup(text, held);
        *seen += held;
        free(copy);
        free(copied);
      }
  }
}

static void in_file(TCBDB *file, int kind, unsigned number, const unsigned char *key, unsigned k, const unsigned char *value, unsigned v, size_t *seen) {
  int size;
  const void *found;
  switch (kind) {
    case 'p': tcbdbput(file, key, k, value, v); break;
    case 'd': tcbdbputdup(file, key, k, value, v); break;
    case 'o': tcbdbout(file, key, k); break;
    case 'f':
      if ((found = tcbdbget3(file, key, k, &size))) *seen += size;
      break;
    case 'r': {
      BDBCUR *cursor = tcbdbcurnew(file);
      tcbdbcurjump(cursor, key, k);
      for (unsigned i = 0; i < number; i++) {
        char *text = tcbdbcurkey(cursor, &size), *held;
        if (!text) break;
        *seen += size;
        held = tcbdbcurval(cursor, &size);
        *seen += size;
        free(text);
        free(held);
        tcbdbcurnext(cursor);
      }
      tcbdbcurdel(cursor);
    }
  }
}

int main(int argc, char **argv) {
  size_t length, seen = 0;
  unsigned char *input = read_all(&length);
  TCTREE *tree = tctreenew();
  TCBDB *file = tcbdbnew();
  if (argc > 1 && !tcbdbopen(file, argv[1], BDBOWRITER | BDBOCREAT | BDBOTRUNC)) return 2;
  for (unsigned char *at = input; at < input + length;) {
    unsigned number = size_at(at + 1), k = size_at(at + 5), v = size_at(at + 9);
    unsigned char *key = at + 13;
    if (argc > 1)
      in_file(file, *at, number, key, k, key + k, v, &seen);
    else
      in_memory(tree, *at, number, key, k, key + k, v, &seen);
    at = key + k + v;
  }
  printf("%zu bytes\n", seen);
  fflush(stdout);
  _exit(0);
}
