// The least that a put of a large value costs where bytes come in events of at most 4,096: a loop over epoll that reads 128 KiB at once, copies each 4,096 of them
// into one buffer and from there into the value's room, and answers `00` once the value is whole, which takes the place of the one before it. It looks nothing up:
// the key's last byte, of keys of up to 256 bytes, says which of 256 values it replaces. With a second word `direct` it reads into the value's room instead, as a server may
// that knows no such events.
// copies PORT [direct]
#include <arpa/inet.h>
#include <errno.h>
#include <fcntl.h>
#include <netinet/in.h>
#include <netinet/tcp.h>
#include <stdint.h>
#include <stdio.h>
#include <stdlib.h>
#include <string.h>
#include <sys/epoll.h>
#include <sys/socket.h>
#include <unistd.h>

#define HEAD 266
struct connection {
  int fd;
  size_t head, whole, have; // bytes of the head that came, of the value that it names, and of that so far
  unsigned char front[HEAD];
  char *value;
};
static char room[131072], event[4096];
static char *kept[256];
static int direct;

static uint32_t big(const unsigned char *at) {
  uint32_t n;
  memcpy(&n, at, 4);
  return ntohl(n);
}

// How many bytes of the head are missing; its lengths tell once they are there.
static size_t missing(const struct connection *c) {
  size_t long_as = c->head < 10 ? 10 : 10 + big(c->front + 2);
  return (long_as < HEAD ? long_as : HEAD) - c->head;
}

static int begin(struct connection *c) {
  c->whole = big(c->front + 6);
  c->have = 0;
  c->value = malloc(c->whole + 1);
  return c->value != 0;
}

static int end(struct connection *c) {
  unsigned char which = c->front[c->head - 1];
  free(kept[which]);
  kept[which] = c->value;
  c->value = 0;
  c->head = 0;
  return write(c->fd, "", 1) == 1;
}

// Takes bytes in, of heads and of values.
static int take(struct connection *c, const char *at, size_t count) {
  while (count > 0) {
    size_t wanted = c->value ? c->whole - c->have : missing(c);
    size_t n = wanted < count ? wanted : count;
    if (c->value) {
      memcpy(c->value + c->have, at, n);
      c->have += n;
    } else {
      memcpy(c->front + c->head, at, n);
      c->head += n;
      if (missing(c) == 0 && !begin(c)) return 0;
    }
    if (c->value && c->have == c->whole && !end(c)) return 0;
    at += n;
    count -= n;
  }
  return 1;
}

static int serve(struct connection *c) {
  for (;;) {
    int into_value = direct && c->value;
    ssize_t n = into_value ? read(c->fd, c->value + c->have, c->whole - c->have) : read(c->fd, room, direct ? 4096 : sizeof room);
    if (n == 0) return 0;
    if (n < 0) return errno == EAGAIN;
    if (into_value) {
      c->have += (size_t)n;
      if (c->have == c->whole && !end(c)) return 0;
      continue;
    }
    for (size_t from = 0; from < (size_t)n; from += sizeof event) {
      size_t piece = (size_t)n - from < sizeof event ? (size_t)n - from : sizeof event;
      memcpy(event, room + from, piece);
      __asm__ volatile("" : : "r"(event) : "memory");
      if (!take(c, event, piece)) return 0;
    }
  }
}

int main(int argc, char **argv) {
  if (argc < 2) return 2;
  direct = argc > 2;
  int one = 1, port = atoi(argv[1]), listener = socket(AF_INET, SOCK_STREAM, 0), poll = epoll_create1(0);
  struct sockaddr_in at = {.sin_family = AF_INET, .sin_port = htons((uint16_t)port), .sin_addr.s_addr = htonl(INADDR_LOOPBACK)};
  struct epoll_event e = {.events = EPOLLIN, .data.ptr = 0}, events[128];
  setsockopt(listener, SOL_SOCKET, SO_REUSEADDR, &one, sizeof one);
  if (bind(listener, (struct sockaddr *)&at, sizeof at) < 0 || listen(listener, 128) < 0) return perror("listen"), 1;
  epoll_ctl(poll, EPOLL_CTL_ADD, listener, &e);
  for (;;) {
    int n = epoll_wait(poll, events, 128, -1);
    for (int i = 0; i < n; i++) {
      struct connection *c = events[i].data.ptr;
      if (!c) {
        c = calloc(1, sizeof *c);
        c->fd = accept(listener, 0, 0);
        fcntl(c->fd, F_SETFL, O_NONBLOCK);
        setsockopt(c->fd, IPPROTO_TCP, TCP_NODELAY, &one, sizeof one);
        struct epoll_event f = {.events = EPOLLIN | EPOLLET, .data.ptr = c};
        epoll_ctl(poll, EPOLL_CTL_ADD, c->fd, &f);
      } else if (!serve(c)) {
        close(c->fd), free(c->value), free(c);
      }
    }
  }
}
