// One process of clients that keep so many requests under way on each connection, over epoll. Prints a line: requests a second, the median and the
// 99th percentile of a request's time in microseconds (from the write that holds it to the read that ends its reply).
//
// load PROTOCOL PORT CONNECTIONS DEPTH set|get VALUE-BYTES KEYS SECONDS [IDLE], where PROTOCOL is tokyo, redis or memcached. Gets ask for keys that are put
// first. So many connections more are opened and say nothing.
#include <arpa/inet.h>
#include <errno.h>
#include <fcntl.h>
#include <netinet/in.h>
#include <netinet/tcp.h>
#include <stdint.h>
#include <stdio.h>
#include <stdlib.h>
#include <string.h>
#include <sys/epoll.h>
#include <sys/socket.h>
#include <time.h>
#include <unistd.h>

enum protocol { TOKYO, REDIS, MEMCACHED };
static enum protocol protocol;
static int value_bytes, keys, depth;
static char *value;

struct connection {
  int fd;
  char *out; // written from `written` up to `to_write`
  size_t to_write, written;
  size_t awaited; // bytes of replies still to come
  int in_batch;
  uint64_t began;
};

static uint64_t now_ns(void) {
  struct timespec t;
  clock_gettime(CLOCK_MONOTONIC, &t);
  return (uint64_t)t.tv_sec * 1000000000u + (uint64_t)t.tv_nsec;
}

static uint64_t seed = 88172645463325252u;
static uint64_t draw(void) {
  seed ^= seed << 13, seed ^= seed >> 7, seed ^= seed << 17;
  return seed;
}

static void die(const char *what) {
  perror(what);
  exit(1);
}

static size_t big(char *at, uint32_t n) {
  uint32_t be = htonl(n);
  memcpy(at, &be, 4);
  return 4;
}

// A key has 16 bytes.
static size_t put_request(char *at, int is_set, int number) {
  char key[17], *start = at;
  snprintf(key, sizeof key, "key:%012d", number);
  switch (protocol) {
  case TOKYO:
    *at++ = (char)0xC8, *at++ = is_set ? 0x10 : 0x30;
    at += big(at, 16);
    if (is_set) at += big(at, (uint32_t)value_bytes);
    memcpy(at, key, 16), at += 16;
    break;
  case REDIS:
    if (is_set)
      at += sprintf(at, "*3\r\n$3\r\nSET\r\n$16\r\n%s\r\n$%d\r\n", key, value_bytes);
    else
      at += sprintf(at, "*2\r\n$3\r\nGET\r\n$16\r\n%s\r\n", key);
    break;
  case MEMCACHED:
    at += is_set ? sprintf(at, "set %s 0 0 %d\r\n", key, value_bytes) : sprintf(at, "get %s\r\n", key);
    break;
  }
  if (is_set) {
    memcpy(at, value, (size_t)value_bytes), at += value_bytes;
    if (protocol != TOKYO) *at++ = '\r', *at++ = '\n';
  }
  return (size_t)(at - start);
}

static size_t reply_bytes(int is_set) {
  char head[64];
  switch (protocol) {
  case TOKYO: return is_set ? 1 : 5 + (size_t)value_bytes;
  case REDIS: return is_set ? 5 : (size_t)sprintf(head, "$%d\r\n", value_bytes) + (size_t)value_bytes + 2;
  default: return is_set ? 8 : (size_t)sprintf(head, "VALUE key:000000000000 0 %d\r\n", value_bytes) + (size_t)value_bytes + 2 + 5;
  }
}

static void begin(struct connection *c, int is_set, int first, int count) {
  c->to_write = c->written = 0;
  for (int i = 0; i < count; i++) c->to_write += put_request(c->out + c->to_write, is_set, first < 0 ? (int)(draw() % (uint64_t)keys) : first + i);
  c->awaited = reply_bytes(is_set) * (size_t)count;
  c->in_batch = count;
  c->began = now_ns();
}

static void push(struct connection *c) {
  while (c->written < c->to_write) {
    ssize_t n = write(c->fd, c->out + c->written, c->to_write - c->written);
    if (n < 0) {
      if (errno == EAGAIN) return;
      die("write");
    }
    c->written += (size_t)n;
  }
}

static void connect_to(struct connection *c, int port, size_t room) {
  struct sockaddr_in to = {.sin_family = AF_INET, .sin_port = htons((uint16_t)port), .sin_addr.s_addr = htonl(INADDR_LOOPBACK)};
  int one = 1;
  c->fd = socket(AF_INET, SOCK_STREAM, 0);
  if (c->fd < 0 || connect(c->fd, (struct sockaddr *)&to, sizeof to) < 0) die("connect");
  setsockopt(c->fd, IPPROTO_TCP, TCP_NODELAY, &one, sizeof one);
  fcntl(c->fd, F_SETFL, O_NONBLOCK);
  c->out = malloc(room);
}

static int by_size(const void *a, const void *b) {
  uint32_t x = *(const uint32_t *)a, y = *(const uint32_t *)b;
  return x < y ? -1 : x > y;
}

// Runs batches until the time is over, or over each key once where `fills`. Answers how many requests were answered.
static uint64_t run(struct connection *cs, int count, int is_set, int fills, double seconds, uint32_t *times, size_t most, size_t *seen) {
  static char into[1 << 20];
  struct epoll_event events[128];
  int poll = epoll_create1(0), next = 0, active = 0;
  uint64_t done = 0, stop = now_ns() + (uint64_t)(seconds * 1e9);
  for (int i = 0; i < count; i++) {
    struct epoll_event e = {.events = EPOLLIN | EPOLLOUT | EPOLLET, .data.ptr = &cs[i]};
    int n = fills ? (keys - next < depth ? keys - next : depth) : depth;
    if (n == 0) continue;
    begin(&cs[i], is_set, fills ? next : -1, n);
    next += n, active++;
    epoll_ctl(poll, EPOLL_CTL_ADD, cs[i].fd, &e);
    push(&cs[i]);
  }
  while (active > 0) {
    int n = epoll_wait(poll, events, 128, 5000);
    if (n <= 0) die("no reply in five seconds");
    for (int i = 0; i < n; i++) {
      struct connection *c = events[i].data.ptr;
      push(c);
      while (c->awaited > 0) {
        ssize_t got = read(c->fd, into, c->awaited < sizeof into ? c->awaited : sizeof into);
        if (got == 0) die("closed");
        if (got < 0) {
          if (errno == EAGAIN) break;
          die("read");
        }
        c->awaited -= (size_t)got;
        if (c->awaited > 0) continue;
        uint64_t at = now_ns();
        for (int k = 0; k < c->in_batch; k++)
          if (*seen < most) times[(*seen)++] = (uint32_t)((at - c->began) / 100);
        done += (uint64_t)c->in_batch;
        int more = fills ? (keys - next < depth ? keys - next : depth) : (at < stop ? depth : 0);
        if (more == 0) {
          active--;
          break;
        }
        begin(c, is_set, fills ? next : -1, more);
        next += more;
        push(c);
      }
    }
  }
  close(poll);
  return done;
}

int main(int argc, char **argv) {
  if (argc != 9 && argc != 10) return fprintf(stderr, "load PROTOCOL PORT CONNECTIONS DEPTH set|get VALUE-BYTES KEYS SECONDS [IDLE]\n"), 2;
  protocol = !strcmp(argv[1], "tokyo") ? TOKYO : !strcmp(argv[1], "redis") ? REDIS : MEMCACHED;
  int port = atoi(argv[2]), count = atoi(argv[3]), is_set = !strcmp(argv[5], "set");
  depth = atoi(argv[4]), value_bytes = atoi(argv[6]), keys = atoi(argv[7]);
  double seconds = atof(argv[8]);
  value = malloc((size_t)value_bytes + 1);
  memset(value, 'v', (size_t)value_bytes);
  struct connection *cs = calloc((size_t)count, sizeof *cs);
  for (int i = 0; i < count; i++) connect_to(&cs[i], port, (size_t)depth * ((size_t)value_bytes + 128));
  for (int i = 0; argc == 10 && i < atoi(argv[9]); i++) {
    struct connection idle;
    connect_to(&idle, port, 1);
  }
  size_t most = 1 << 24, seen = 0;
  uint32_t *times = malloc(most * sizeof *times);
  run(cs, count, 1, 1, 0, times, most, &seen);
  seen = 0;
  uint64_t start = now_ns(), done = run(cs, count, is_set, 0, seconds, times, most, &seen);
  double spent = (double)(now_ns() - start) / 1e9;
  qsort(times, seen, sizeof *times, by_size);
  printf("%.0f %.1f %.1f %llu\n", (double)done / spent, times[seen / 2] / 10.0, times[seen - seen / 100 - 1] / 10.0, (unsigned long long)done);
  return 0;
}
