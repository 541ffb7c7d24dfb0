/* A null server and loads for a forwarder of bytes, for bench/bench-edge alone. A request has 64 bytes, its answer 80.
 *
 *   edge_load server PORT                          answers until it is ended
 *   edge_load load PORT CLIENTS OUTSTANDING MS     prints: operations, microseconds, median and 99th percentile (us)
 *   edge_load idle PORT LINKS                      opens so many, prints a line, and holds them until its input ends
 *   edge_load churn PORT LINKS                     opens, uses and closes so many, one after the other; prints how many
 */
#define _GNU_SOURCE
#include <arpa/inet.h>
#include <errno.h>
#include <netinet/tcp.h>
#include <stdint.h>
#include <stdio.h>
#include <stdlib.h>
#include <string.h>
#include <sys/epoll.h>
#include <sys/socket.h>
#include <time.h>
#include <unistd.h>

enum { REQUEST = 64, ANSWER = 80, ROOM = 65536, EVENTS = 256, SLOTS = 1 << 16, BUCKETS = 1 << 16 };

static uint64_t now_ns(void) {
    struct timespec t;
    clock_gettime(CLOCK_MONOTONIC, &t);
    return (uint64_t)t.tv_sec * 1000000000u + (uint64_t)t.tv_nsec;
}

static void fail(const char *what) {
    perror(what);
    exit(1);
}

static struct sockaddr_in here(int port) {
    struct sockaddr_in at = {.sin_family = AF_INET, .sin_port = htons((uint16_t)port)};
    at.sin_addr.s_addr = htonl(INADDR_LOOPBACK);
    return at;
}

static void no_delay(int fd) {
    int one = 1;
    setsockopt(fd, IPPROTO_TCP, TCP_NODELAY, &one, sizeof one);
}

static int connected(int port) {
    struct sockaddr_in at = here(port);
    int fd = socket(AF_INET, SOCK_STREAM, 0);
    if (fd < 0 || connect(fd, (struct sockaddr *)&at, sizeof at)) fail("connect");
    no_delay(fd);
    return fd;
}

/* Writes all, which fits the system's buffer in every use below. */
static void put(int fd, const char *from, size_t n) {
    while (n > 0) {
        ssize_t some = send(fd, from, n, MSG_NOSIGNAL);
        if (some < 0 && errno == EAGAIN) continue;
        if (some <= 0) fail("send");
        from += some;
        n -= (size_t)some;
    }
}

_Noreturn static void serve(int port) {
    static char in[ROOM], out[ROOM / REQUEST * ANSWER + ANSWER];
    static uint32_t rest[SLOTS];
    int one = 1, door = socket(AF_INET, SOCK_STREAM | SOCK_NONBLOCK, 0), poll = epoll_create1(0);
    struct sockaddr_in at = here(port);
    struct epoll_event event = {.events = EPOLLIN, .data.fd = door}, events[EVENTS];
    memset(out, 'a', sizeof out);
    setsockopt(door, SOL_SOCKET, SO_REUSEADDR, &one, sizeof one);
    if (bind(door, (struct sockaddr *)&at, sizeof at) || listen(door, 4096)) fail("listen");
    epoll_ctl(poll, EPOLL_CTL_ADD, door, &event);
    for (;;) {
        int n = epoll_wait(poll, events, EVENTS, -1);
        for (int i = 0; i < n; i++) {
            int fd = events[i].data.fd;
            if (fd == door) {
                while ((fd = accept4(door, NULL, NULL, SOCK_NONBLOCK)) >= 0) {
                    if (fd >= SLOTS) fail("descriptors");
                    no_delay(fd);
                    rest[fd] = 0;
                    event = (struct epoll_event){.events = EPOLLIN, .data.fd = fd};
                    epoll_ctl(poll, EPOLL_CTL_ADD, fd, &event);
                }
                continue;
            }
            ssize_t got = recv(fd, in, sizeof in, 0);
            if (got < 0 && errno == EAGAIN) continue;
            if (got <= 0) {
                close(fd);
                continue;
            }
            uint32_t all = rest[fd] + (uint32_t)got;
            rest[fd] = all % REQUEST;
            if (all >= REQUEST) put(fd, out, all / REQUEST * (size_t)ANSWER);
        }
    }
}

static int compare(const void *a, const void *b) {
    uint32_t x = *(const uint32_t *)a, y = *(const uint32_t *)b;
    return (x > y) - (x < y);
}

/* Each client has so many requests outstanding: for each answer it sends the next request. */
static int load(int port, int clients, int outstanding, int ms) {
    static char in[ROOM], out[ROOM];
    static uint32_t taken[BUCKETS];
    int fds[clients], poll = epoll_create1(0);
    uint32_t rest[clients];
    uint64_t sent[clients], done = 0, looks = 0;
    struct epoll_event events[EVENTS];
    memset(out, 'q', sizeof out);
    for (int c = 0; c < clients; c++) {
        struct epoll_event event = {.events = EPOLLIN, .data.fd = c};
        fds[c] = connected(port);
        rest[c] = 0;
        epoll_ctl(poll, EPOLL_CTL_ADD, fds[c], &event);
    }
    uint64_t begin = now_ns(), end = begin + (uint64_t)ms * 1000000u, now = begin;
    for (int c = 0; c < clients; c++) {
        sent[c] = begin;
        put(fds[c], out, (size_t)outstanding * REQUEST);
    }
    while (now < end) {
        int n = epoll_wait(poll, events, EVENTS, 1000);
        if (n <= 0) fail("no answer came");
        now = now_ns();
        for (int i = 0; i < n; i++) {
            int c = events[i].data.fd;
            ssize_t got = recv(fds[c], in, sizeof in, 0);
            if (got <= 0) fail("recv");
            for (ssize_t k = 0; k < got; k++)
                if (in[k] != 'a') fail("a wrong answer");
            uint32_t all = rest[c] + (uint32_t)got, answers = all / ANSWER;
            rest[c] = all % ANSWER;
            if (answers == 0) continue;
            /* The time since the client last sent: that of an operation where one is outstanding. */
            taken[looks++ % BUCKETS] = (uint32_t)((now - sent[c]) / 1000u);
            done += answers;
            sent[c] = now;
            put(fds[c], out, (size_t)answers * REQUEST);
        }
    }
    size_t kept = looks < BUCKETS ? (size_t)looks : BUCKETS;
    qsort(taken, kept, sizeof *taken, compare);
    printf("%llu %llu %u %u\n", (unsigned long long)done, (unsigned long long)((now - begin) / 1000u), taken[kept / 2],
           taken[kept * 99 / 100]);
    return 0;
}

/* One operation, so that the whole way stands. */
static void use(int fd) {
    char out[REQUEST], in[ANSWER];
    memset(out, 'q', sizeof out);
    put(fd, out, sizeof out);
    if (recv(fd, in, sizeof in, MSG_WAITALL) != ANSWER || in[0] != 'a') fail("no answer");
}

static int idle(int port, int links) {
    char byte;
    for (int i = 0; i < links; i++) use(connected(port));
    puts("open");
    fflush(stdout);
    while (read(0, &byte, 1) > 0) {
    }
    return 0;
}

static int churn(int port, int links) {
    for (int i = 0; i < links; i++) {
        int fd = connected(port);
        use(fd);
        close(fd);
    }
    printf("%d\n", links);
    return 0;
}

int main(int count, char **words) {
    int port = count > 2 ? atoi(words[2]) : 0;
    if (count == 3 && !strcmp(words[1], "server")) serve(port);
    if (count == 6 && !strcmp(words[1], "load")) return load(port, atoi(words[3]), atoi(words[4]), atoi(words[5]));
    if (count == 4 && !strcmp(words[1], "idle")) return idle(port, atoi(words[3]));
    if (count == 4 && !strcmp(words[1], "churn")) return churn(port, atoi(words[3]));
    fputs("edge_load: usage\n", stderr);
    return 2;
}
