/* Serves terminals that sell over a book in SQLite, as a host in C does that is written with care: over
 * epoll, in rounds, each round one transaction (../sql/book.h). Each sale is approved with the code that
 * bench/listen.sh expects. Its arguments are the database, whose book has the merchants, the port, and
 * how many connections it serves before it ends. */
#define _GNU_SOURCE
#include "../sql/book.h"
#include <arpa/inet.h>
#include <errno.h>
#include <netinet/tcp.h>
#include <sys/epoll.h>
#include <sys/socket.h>
#include <unistd.h>

enum { CONNECTIONS = 1024, HEADER = 2, PIECE = 4096, EVENTS = 64 };

struct connection {
    int file;
    size_t held, unsent;
    unsigned char came[PIECE], reply[HEADER + 400];
};

static struct connection connections[CONNECTIONS];
static int poll_file, open_ones, ended;

/* How many bytes the frame in front has, once it is whole; else 0. */
static size_t frame_length(const struct connection *it) {
    if (it->held < HEADER) return 0;
    size_t length = HEADER + 256u * it->came[0] + it->came[1];
    if (length > PIECE) fail("a frame that is too long");
    return it->held < length ? 0 : length;
}

static void accept_one(int listener) {
    int file = accept4(listener, NULL, NULL, SOCK_NONBLOCK), on = 1;
    if (file < 0) fail("accept");
    if (file >= CONNECTIONS) fail("too many connections");
    setsockopt(file, IPPROTO_TCP, TCP_NODELAY, &on, sizeof on);
    struct connection *it = &connections[file];
    it->file = file;
    it->held = it->unsent = 0;
    struct epoll_event event = {.events = EPOLLIN, .data.ptr = it};
    if (epoll_ctl(poll_file, EPOLL_CTL_ADD, file, &event)) fail("epoll_ctl");
    open_ones++;
}

/* Reads what came, and says whether a message is whole. */
static int receive(struct connection *it) {
    ssize_t n = read(it->file, it->came + it->held, PIECE - it->held);
    if (n > 0) it->held += (size_t)n;
    else if (n == 0 || errno != EAGAIN) {
        close(it->file);
        open_ones--;
        ended++;
        return 0;
    }
    return frame_length(it) > 0;
}

/* Takes the message in front, with its issuer's answer, and holds the reply. */
static void take(struct connection *it) {
    struct event sale, answer;
    size_t length = frame_length(it);
    char reply[400];
    if (length != HEADER + SALE_BYTES || !read_sale(&sale, (const char *)it->came + HEADER)) fail("no sale");
    answer = sale;
    answer.kind = ANSWER;
    answer.reference = take_sale(&sale);
    memcpy(answer.code, "A1B2C3", 7);
    take_answer(&answer, reply);
    memmove(it->came, it->came + length, it->held - length);
    it->held -= length;
    size_t bytes = strlen(reply);
    it->reply[0] = (unsigned char)(bytes >> 8);
    it->reply[1] = (unsigned char)bytes;
    memcpy(it->reply + HEADER, reply, bytes);
    it->unsent = HEADER + bytes;
}

/* A reply is shorter than what a socket takes at once where the terminal reads it before its next sale. */
static void reply(struct connection *it) {
    if (write(it->file, it->reply, it->unsent) != (ssize_t)it->unsent) fail("write");
    it->unsent = 0;
}

int main(int arguments, char **argument) {
    if (arguments != 4) fail("DATABASE PORT COUNT");
    int count = atoi(argument[3]), on = 1, listener = socket(AF_INET, SOCK_STREAM, 0);
    struct sockaddr_in address = {.sin_family = AF_INET, .sin_port = htons((unsigned short)atoi(argument[2])),
                                  .sin_addr.s_addr = htonl(INADDR_LOOPBACK)};
    struct epoll_event events[EVENTS], listens = {.events = EPOLLIN};
    open_book(argument[1]);
    setsockopt(listener, SOL_SOCKET, SO_REUSEADDR, &on, sizeof on);
    if (bind(listener, (struct sockaddr *)&address, sizeof address) || listen(listener, 1024)) fail("listen");
    poll_file = epoll_create1(0);
    if (epoll_ctl(poll_file, EPOLL_CTL_ADD, listener, &listens)) fail("epoll_ctl");
    while (ended < count || open_ones > 0) {
        struct connection *ready[EVENTS];
        int many = epoll_wait(poll_file, events, EVENTS, -1), ready_ones = 0;
        for (int at = 0; at < many; at++) {
            struct connection *it = events[at].data.ptr;
            if (!it) accept_one(listener);
            else if (receive(it)) ready[ready_ones++] = it;
        }
        if (ready_ones == 0) continue;
        run(BEGIN);
        for (int at = 0; at < ready_ones; at++) take(ready[at]);
        run(COMMIT);
        for (int at = 0; at < ready_ones; at++) reply(ready[at]);
    }
    close_book();
    return 0;
}
