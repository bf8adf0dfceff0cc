// Clients of a server of durable puts: clients tokyo|fixed|redis PORT HELD, where `fixed` is tokyo with ids for keys. Each connection has so many requests under way, and sends as many
// again when all of them are answered. A reply that isn't that of a put that was done ends it.
#include "durable.h"
#include <arpa/inet.h>
#include <errno.h>
#include <fcntl.h>
#include <netinet/in.h>
#include <netinet/tcp.h>
#include <sys/epoll.h>
#include <sys/socket.h>
#include <unistd.h>

enum { MOST = 64 };
enum protocol { TOKYO, FIXED, REDIS };
static enum protocol protocol;
static int port;

struct connection {
  int fd;
  char *out; // written from `written` up to `to_write`
  size_t room, to_write, written, awaited;
  long requests;
} connections[MOST];
static int open_count;

static size_t big(char *at, size_t n) {
  uint32_t be = htonl((uint32_t)n);
  memcpy(at, &be, 4);
  return 4;
}

static size_t spell(char *at, long number) {
  if (protocol == FIXED) return (size_t)sprintf(at, "%ld", number + 1);
  spell_key(at, number);
  return KEY;
}

// A put, or a list of puts.
static size_t request(char *at, int is_new, int list) {
  char *start = at, key[32], value[VALUE];
  if (protocol == REDIS) {
    at += sprintf(at, "*%d\r\n", 1 + 2 * list);
    at += list == 1 ? sprintf(at, "$3\r\nSET\r\n") : sprintf(at, "$4\r\nMSET\r\n");
  } else {
    *at++ = (char)0xC8, *at++ = (char)(list == 1 ? 0x10 : 0x90);
  }
  if (protocol != REDIS && list > 1) {
    at += big(at, 7), at += big(at, 0), at += big(at, (size_t)(2 * list));
    memcpy(at, "putlist", 7), at += 7;
  }
  for (int i = 0; i < list; i++) {
    size_t size = spell(key, draw(is_new));
    spell_value(value);
    if (protocol == REDIS) {
      at += sprintf(at, "$%zu\r\n%.*s\r\n$%d\r\n%.*s\r\n", size, (int)size, key, VALUE, VALUE, value);
      continue;
    }
    at += big(at, size);
    if (list == 1) at += big(at, VALUE);
    memcpy(at, key, size), at += size;
    if (list > 1) at += big(at, VALUE);
    memcpy(at, value, VALUE), at += VALUE;
  }
  return (size_t)(at - start);
}

// What a request is answered that was done.
static const char *answer(int list, size_t *size) {
  *size = protocol == REDIS ? 5 : list == 1 ? 1 : 5;
  return protocol == REDIS ? "+OK\r\n" : "\0\0\0\0\0";
}

static void push(struct connection *c) {
  while (c->written < c->to_write) {
    ssize_t n = write(c->fd, c->out + c->written, c->to_write - c->written);
    if (n < 0 && errno == EAGAIN) return;
    must(n > 0, "write");
    c->written += (size_t)n;
  }
}

static void ask(struct connection *c, struct order o) {
  size_t room = (size_t)o.depth * (64 + (size_t)o.list * (VALUE + 64)), size;
  if (c->room < room) c->out = realloc(c->out, c->room = room);
  must(c->out != NULL, "realloc");
  c->to_write = c->written = 0;
  for (int i = 0; i < o.depth; i++) c->to_write += request(c->out + c->to_write, o.is_new, o.list);
  answer(o.list, &size);
  c->requests = o.depth;
  c->awaited = size * (size_t)o.depth;
  push(c);
}

// Reads what is there. Answers whether all that was asked is answered.
static int pull(struct connection *c, int list) {
  static char into[1 << 16];
  size_t size;
  const char *wanted = answer(list, &size);
  while (c->awaited > 0) {
    ssize_t got = read(c->fd, into, c->awaited < sizeof into ? c->awaited : sizeof into);
    if (got < 0 && errno == EAGAIN) return 0;
    must(got > 0, "read");
    for (ssize_t i = 0; i < got; i++, c->awaited--) {
      if (into[i] == wanted[(size - c->awaited % size) % size]) continue;
      fprintf(stderr, "a put was refused: %.*s\n", (int)got, into);
      exit(1);
    }
  }
  return 1;
}

static int connected(void) {
  struct sockaddr_in to = {.sin_family = AF_INET, .sin_port = htons((uint16_t)port), .sin_addr.s_addr = htonl(INADDR_LOOPBACK)};
  int one = 1, fd = socket(AF_INET, SOCK_STREAM, 0);
  must(fd >= 0 && connect(fd, (struct sockaddr *)&to, sizeof to) == 0, "connect");
  setsockopt(fd, IPPROTO_TCP, TCP_NODELAY, &one, sizeof one);
  fcntl(fd, F_SETFL, O_NONBLOCK);
  return fd;
}

// Carries an order out until its time is over, or until `next` comes to `most`.
static long carry_out_to(struct order o, long most) {
  struct epoll_event events[MOST];
  int poll = epoll_create1(0), active = 0;
  long puts = 0;
  double stop = now() + o.seconds;
  for (; open_count < o.clients; open_count++) connections[open_count].fd = connected();
  for (; active < o.clients; active++) {
    struct epoll_event e = {.events = EPOLLIN | EPOLLOUT | EPOLLET, .data.ptr = &connections[active]};
    epoll_ctl(poll, EPOLL_CTL_ADD, connections[active].fd, &e);
    ask(&connections[active], o);
  }
  while (active > 0) {
    int n = epoll_wait(poll, events, MOST, 30000);
    must(n > 0, "no reply in thirty seconds");
    for (int i = 0; i < n; i++) {
      struct connection *c = events[i].data.ptr;
      push(c);
      while (c->requests > 0 && pull(c, o.list)) {
        puts += c->requests * o.list;
        c->requests = 0;
        if (now() >= stop || next >= most) {
          active--;
        } else {
          ask(c, o);
        }
      }
    }
  }
  close(poll);
  return puts;
}

static long carry_out(struct order o) { return carry_out_to(o, INT64_MAX); }

// It asks on the first connection, which is there: tokyo takes no more than MOST.
static long count(void) {
  const char *all = protocol == REDIS ? "*1\r\n$6\r\nDBSIZE\r\n" : "\xc8\x80";
  char reply[64] = {0};
  long found = 0;
  int fd = connections[0].fd;
  fcntl(fd, F_SETFL, 0);
  must(write(fd, all, strlen(all)) == (ssize_t)strlen(all), "write");
  if (protocol == REDIS) {
    must(read(fd, reply, sizeof reply - 1) > 0, "DBSIZE");
    found = atol(reply + 1);
  } else {
    must(recv(fd, reply, 9, MSG_WAITALL) == 9 && reply[0] == 0, "rnum");
    for (int i = 1; i < 9; i++) found = found << 8 | (unsigned char)reply[i];
  }
  fcntl(fd, F_SETFL, O_NONBLOCK);
  return found;
}

int main(int argc, char **argv) {
  must(argc == 4, "clients tokyo|fixed|redis PORT HELD");
  protocol = strcmp(argv[1], "redis") == 0 ? REDIS : strcmp(argv[1], "fixed") == 0 ? FIXED : TOKYO;
  port = atoi(argv[2]), held = atol(argv[3]);
  carry_out_to((struct order){1, 1000, 1, 1, 1e9}, held);
  must(next == held, "HELD is a number of thousands");
  serve_orders("");
  return 0;
}
