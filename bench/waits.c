// Commits as the undo log makes them, and nothing else: the log, its sync, writes of 64 bytes over a file of 1 MB, its sync, the log's end, its sync.
// Its words are how many commits, how many writes in each, and how many bytes the log keeps at its end.
#define _GNU_SOURCE
#include <fcntl.h>
#include <stdio.h>
#include <stdlib.h>
#include <string.h>
#include <unistd.h>

enum { PLACES = 16384, SIZE = 64 };

static void must(int holds) {
  if (holds) return;
  perror("waits");
  exit(1);
}

int main(int count, char **words) {
  must(count == 4);
  long commits = atol(words[1]), writes = atol(words[2]), left = atol(words[3]), place = 0;
  static char bytes[PLACES * SIZE];
  memset(bytes, 'T', sizeof bytes);
  int log = open("looped.undo", O_RDWR | O_CREAT | O_TRUNC, 0644), file = open("looped", O_RDWR | O_CREAT | O_TRUNC, 0644);
  must(log >= 0 && file >= 0);
  must(pwrite(file, bytes, sizeof bytes, 0) == sizeof bytes && fsync(file) == 0 && fsync(log) == 0);
  long entry = 20 + SIZE, front = 152;
  for (long i = 0; i < commits; i++) {
    must(pwrite(log, bytes, front, 0) == front);
    for (long j = 0; j < writes; j++) must(pwrite(log, bytes, entry, front + j * entry) == entry);
    must(fdatasync(log) == 0);
    for (long j = 0; j < writes; j++) {
      place = (place + 5001) % PLACES;
      must(pwrite(file, bytes, SIZE, place * SIZE) == SIZE);
    }
    must(fdatasync(file) == 0 && ftruncate(log, left) == 0 && fdatasync(log) == 0);
  }
  return 0;
}
