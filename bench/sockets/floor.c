// A plain loop over epoll that answers the same requests: each ready connection is read (16 KiB at a time), and each reply is written as it is made, or, with a
// third word `gather`, what one read asked for at once. A put is answered `00`, a get with a value of the size it is told, so that nothing is looked up.
// floor PORT VALUE-BYTES [gather]
#include <arpa/inet.h>
#include <errno.h>
#include <fcntl.h>
#include <netinet/in.h>
#include <netinet/tcp.h>
#include <stdint.h>
#include <stdio.h>
#include <stdlib.h>
#include <string.h>
#include <sys/epoll.h>
#include <sys/socket.h>
#include <unistd.h>

#define ROOM (4 << 20)
struct connection {
  int fd;
  char *in, *out;
  size_t have, to_write, written;
};
static size_t value_bytes;
static int gathers;

static uint32_t big(const char *at) {
  uint32_t n;
  memcpy(&n, at, 4);
  return ntohl(n);
}

static int push(struct connection *c) {
  while (c->written < c->to_write) {
    ssize_t n = write(c->fd, c->out + c->written, c->to_write - c->written);
    if (n < 0) return errno == EAGAIN;
    c->written += (size_t)n;
  }
  c->written = c->to_write = 0;
  return 1;
}

static int answer(struct connection *c) {
  size_t at = 0;
  while (c->have - at >= 6 && c->to_write + value_bytes + 5 <= ROOM) {
    const char *r = c->in + at;
    int is_put = r[1] == 0x10;
    if (is_put && c->have - at < 10) break;
    size_t whole = is_put ? 10 + big(r + 2) + big(r + 6) : 6 + big(r + 2);
    if (c->have - at < whole) break;
    c->out[c->to_write++] = 0;
    if (!is_put) {
      uint32_t size = htonl((uint32_t)value_bytes);
      memcpy(c->out + c->to_write, &size, 4);
      memset(c->out + c->to_write + 4, 'v', value_bytes);
      c->to_write += 4 + value_bytes;
    }
    at += whole;
    if (!gathers && !push(c)) return 0;
  }
  memmove(c->in, c->in + at, c->have - at);
  c->have -= at;
  return 1;
}

static int serve(struct connection *c) {
  for (;;) {
    if (!push(c)) return 0;
    if (c->to_write > 0) return 1;
    size_t room = ROOM - c->have < 16384 ? ROOM - c->have : 16384;
    ssize_t n = read(c->fd, c->in + c->have, room);
    if (n == 0) return 0;
    if (n < 0) return errno == EAGAIN;
    c->have += (size_t)n;
    if (!answer(c)) return 0;
  }
}

int main(int argc, char **argv) {
  if (argc < 3) return 2;
  gathers = argc > 3;
  int one = 1, port = atoi(argv[1]), listener = socket(AF_INET, SOCK_STREAM, 0), poll = epoll_create1(0);
  value_bytes = (size_t)atoi(argv[2]);
  struct sockaddr_in at = {.sin_family = AF_INET, .sin_port = htons((uint16_t)port), .sin_addr.s_addr = htonl(INADDR_LOOPBACK)};
  struct epoll_event e = {.events = EPOLLIN, .data.ptr = 0}, events[128];
  setsockopt(listener, SOL_SOCKET, SO_REUSEADDR, &one, sizeof one);
  if (bind(listener, (struct sockaddr *)&at, sizeof at) < 0 || listen(listener, 128) < 0) return perror("listen"), 1;
  epoll_ctl(poll, EPOLL_CTL_ADD, listener, &e);
  for (;;) {
    int n = epoll_wait(poll, events, 128, -1);
    for (int i = 0; i < n; i++) {
      struct connection *c = events[i].data.ptr;
      if (!c) {
        c = calloc(1, sizeof *c);
        c->fd = accept(listener, 0, 0);
        c->in = malloc(ROOM), c->out = malloc(ROOM);
        fcntl(c->fd, F_SETFL, O_NONBLOCK);
        setsockopt(c->fd, IPPROTO_TCP, TCP_NODELAY, &one, sizeof one);
        struct epoll_event f = {.events = EPOLLIN | EPOLLOUT | EPOLLET, .data.ptr = c};
        epoll_ctl(poll, EPOLL_CTL_ADD, c->fd, &f);
      } else if (!serve(c)) {
        close(c->fd), free(c->in), free(c->out), free(c);
      }
    }
  }
}
