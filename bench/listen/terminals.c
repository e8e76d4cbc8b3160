/* Terminals that sell at once, each sale behind the reply to the one before it. Its arguments are the port, how
 * many terminals, of how many merchants, and how many sales in all. It prints how many nanoseconds they took
 * together, and of how long a reply took, in nanoseconds, the middle and the longest of 99 of 100. */
#define _GNU_SOURCE
#include <arpa/inet.h>
#include <netinet/tcp.h>
#include <stdio.h>
#include <stdlib.h>
#include <string.h>
#include <sys/epoll.h>
#include <sys/socket.h>
#include <time.h>
#include <unistd.h>

enum { MOST = 1024, HEADER = 2 };

struct terminal {
    int file, number, merchant;
    long left, trace;
    long long sent;
    size_t held;
    unsigned char came[1024];
};

static struct terminal terminals[MOST];
static long long *took;
static long answered;

static void fail(const char *what) {
    perror(what);
    exit(1);
}

static long long now(void) {
    struct timespec time;
    clock_gettime(CLOCK_MONOTONIC, &time);
    return time.tv_sec * 1000000000LL + time.tv_nsec;
}

static void sell(struct terminal *it) {
    char frame[200];
    int length = snprintf(frame + HEADER, sizeof frame - HEADER,
                          "02007220000000C0800016411111111111111100000000000000100005010930%02ld%06ldTERM%04dMERCHANT%07d978",
                          it->trace / 1000000, it->trace % 1000000, it->number, it->merchant);
    frame[0] = (char)(length >> 8);
    frame[1] = (char)length;
    it->trace++;
    it->left--;
    it->sent = now();
    if (write(it->file, frame, (size_t)length + HEADER) != length + HEADER) fail("write");
}

static void begin(struct terminal *it, int port) {
    struct sockaddr_in address = {.sin_family = AF_INET, .sin_port = htons((unsigned short)port),
                                  .sin_addr.s_addr = htonl(INADDR_LOOPBACK)};
    int on = 1;
    for (int tries = 0;; tries++) {
        it->file = socket(AF_INET, SOCK_STREAM, 0);
        if (connect(it->file, (struct sockaddr *)&address, sizeof address) == 0) break;
        if (tries == 500) fail("connect");
        close(it->file);
        usleep(10000);
    }
    setsockopt(it->file, IPPROTO_TCP, TCP_NODELAY, &on, sizeof on);
}

/* Whether the reply is whole, which has to approve its sale. */
static int has_reply(struct terminal *it) {
    ssize_t n = read(it->file, it->came + it->held, sizeof it->came - it->held);
    if (n <= 0) fail("read");
    it->held += (size_t)n;
    if (it->held < HEADER || it->held < HEADER + 256u * it->came[0] + it->came[1]) return 0;
    if (!memmem(it->came, it->held, "A1B2C300", 8)) {
        fprintf(stderr, "a sale was not approved: %.*s\n", (int)it->held, it->came);
        exit(1);
    }
    it->held = 0;
    return 1;
}

static int by_length(const void *one, const void *other) {
    long long a = *(const long long *)one, b = *(const long long *)other;
    return (a > b) - (a < b);
}

int main(int arguments, char **argument) {
    if (arguments != 5) return 2;
    int port = atoi(argument[1]), many = atoi(argument[2]), merchants = atoi(argument[3]);
    long sales = atol(argument[4]) / many * many;
    int poll_file = epoll_create1(0), busy = many;
    took = malloc((size_t)sales * sizeof *took);
    if (many > MOST || merchants > many || !took) return 2;
    for (int k = 0; k < many; k++) {
        struct terminal *it = &terminals[k];
        *it = (struct terminal){.number = 1 + k / merchants, .merchant = 1 + k % merchants, .left = sales / many, .trace = 1};
        begin(it, port);
        struct epoll_event event = {.events = EPOLLIN, .data.ptr = it};
        if (epoll_ctl(poll_file, EPOLL_CTL_ADD, it->file, &event)) fail("epoll_ctl");
    }
    long long start = now();
    for (int k = 0; k < many; k++) sell(&terminals[k]);
    while (busy > 0) {
        struct epoll_event events[64];
        int ready = epoll_wait(poll_file, events, 64, 30000);
        if (ready <= 0) fail("no reply within half a minute");
        for (int at = 0; at < ready; at++) {
            struct terminal *it = events[at].data.ptr;
            if (!has_reply(it)) continue;
            took[answered++] = now() - it->sent;
            if (it->left > 0) sell(it);
            else busy--;
        }
    }
    long long whole = now() - start;
    for (int k = 0; k < many; k++) close(terminals[k].file);
    qsort(took, (size_t)answered, sizeof *took, by_length);
    printf("%lld %lld %lld\n", whole, took[answered / 2], took[answered * 99 / 100]);
    return 0;
}
