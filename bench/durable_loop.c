// Calls of the system that a commit makes, and nothing else: loop FILE. An order is a line `CALLS LENGTH PUTS SECONDS`: again and again, until so many seconds are over, the calls that the file
// CALLS has, which so many puts made of a file that was so long at first. It is answered `PUTS SECONDS`, the time between two turns, in which the file gets that length again, left out.
// A call is a line `w FILE PLACE SIZE` (a write), `c FILE LENGTH 0` (a cut) or `s FILE 0 0` (a sync); file 0 is the database, 1 its log.
#include <fcntl.h>
#include <stdio.h>
#include <stdlib.h>
#include <string.h>
#include <time.h>
#include <unistd.h>

enum { MOST = 1 << 20 };
struct call {
  char what;
  int file;
  long at, size;
} *calls;
static int files[2];
static char bytes[MOST];

static void must(int holds, const char *what) {
  if (holds) return;
  perror(what);
  exit(1);
}

static double now(void) {
  struct timespec t;
  clock_gettime(CLOCK_MONOTONIC, &t);
  return (double)t.tv_sec + (double)t.tv_nsec / 1e9;
}

static void must_write(int file, long at, long size) { must(pwrite(file, bytes, (size_t)size, at) == size, "pwrite"); }

static long read_calls(const char *name) {
  long found = 0, room = 0;
  FILE *in = fopen(name, "r");
  must(in != NULL, name);
  for (;;) {
    if (found == room) calls = realloc(calls, (size_t)(room = room ? 2 * room : 4096) * sizeof *calls);
    must(calls != NULL, "realloc");
    struct call *c = &calls[found];
    if (fscanf(in, " %c %d %ld %ld", &c->what, &c->file, &c->at, &c->size) != 4) break;
    must(c->file <= 1 && c->size <= MOST, "a call");
    found++;
  }
  fclose(in);
  return found;
}

// Makes the file so long, and the log one byte, which it keeps.
static void settle(long length) {
  long have = lseek(files[0], 0, SEEK_END);
  must(ftruncate(files[0], length < have ? length : have) == 0 && ftruncate(files[1], 0) == 0, "ftruncate");
  for (; have < length; have += MOST) must_write(files[0], have, length - have < MOST ? length - have : MOST);
  must_write(files[1], 0, 1);
  must(fsync(files[0]) == 0 && fsync(files[1]) == 0, "fsync");
}

static void carry_out(long count) {
  for (struct call *c = calls; c < calls + count; c++) {
    if (c->what == 'w') must_write(files[c->file], c->at, c->size);
    if (c->what == 'c') must(ftruncate(files[c->file], c->at) == 0, "ftruncate");
    if (c->what == 's') must(fdatasync(files[c->file]) == 0, "fdatasync");
  }
}

int main(int argc, char **argv) {
  char line[1024], log[512], name[512];
  must(argc == 2, "loop FILE");
  snprintf(log, sizeof log, "%s.undo", argv[1]);
  memset(bytes, 'T', sizeof bytes);
  files[0] = open(argv[1], O_RDWR | O_CREAT | O_TRUNC, 0644), files[1] = open(log, O_RDWR | O_CREAT | O_TRUNC, 0644);
  must(files[0] >= 0 && files[1] >= 0, "open");
  printf("ready\n"), fflush(stdout);
  while (fgets(line, sizeof line, stdin)) {
    long length, each, puts = 0;
    double seconds, took = 0;
    must(sscanf(line, "%511s %ld %ld %lf", name, &length, &each, &seconds) == 4, line);
    long count = read_calls(name);
    while (took < seconds) {
      settle(length);
      double start = now();
      carry_out(count);
      took += now() - start;
      puts += each;
    }
    printf("%ld %.6f\n", puts, took), fflush(stdout);
  }
  return 0;
}
