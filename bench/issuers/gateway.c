/* gateway PATH MILLISECONDS: a gateway to issuers that approves whatever it is asked, so long after it was.
 * It ends with the host. */
#define _GNU_SOURCE
#include <poll.h>
#include <stdint.h>
#include <stdio.h>
#include <stdlib.h>
#include <string.h>
#include <sys/socket.h>
#include <sys/un.h>
#include <time.h>
#include <unistd.h>

enum { MOST = 65536, INPUT = 1 << 20 };

/* What it was asked: the answer's line, and when it goes out. Those that came first go out first. */
static struct asked { int64_t due; char line[96]; } queue[MOST];
static size_t first, last;
static char input[INPUT];

static int64_t now(void) {
    struct timespec it;
    clock_gettime(CLOCK_MONOTONIC, &it);
    return it.tv_sec * 1000000000LL + it.tv_nsec;
}

static void note(char *line, int64_t delay) {
    char *fields[5];
    if (strncmp(line, "query,", 6) != 0) return;
    for (int i = 0; i < 5; i++) fields[i] = strsep(&line, ",");
    struct asked *it = &queue[last++ % MOST];
    it->due = now() + delay;
    snprintf(it->line, sizeof it->line, "answer,now,%s,%s,approved,A1B2C3\n", fields[2], fields[3]);
}

static void send_all(int end, const char *bytes, size_t n) {
    for (size_t gone = 0; gone < n;) {
        ssize_t more = write(end, bytes + gone, n - gone);
        if (more <= 0) exit(0);
        gone += (size_t)more;
    }
}

static void answer(int end) {
    static char out[MOST * 2];
    size_t n = 0;
    for (; first < last && queue[first % MOST].due <= now() && n + 96 < sizeof out; first++) {
        size_t length = strlen(queue[first % MOST].line);
        memcpy(out + n, queue[first % MOST].line, length);
        n += length;
    }
    send_all(end, out, n);
}

int main(int argc, char **argv) {
    if (argc != 3) return 2;
    int64_t delay = atoll(argv[2]) * 1000000;
    struct sockaddr_un at = { .sun_family = AF_UNIX };
    strncpy(at.sun_path, argv[1], sizeof at.sun_path - 1);
    int end = socket(AF_UNIX, SOCK_STREAM, 0);
    for (int tries = 0; connect(end, (struct sockaddr *)&at, sizeof at) != 0; tries++) {
        if (tries == 500) return 1;
        usleep(10000);
    }
    send_all(end, "from,0\n", 7);
    for (size_t held = 0;;) {
        struct pollfd it = { .fd = end, .events = POLLIN };
        int64_t left = first < last ? queue[first % MOST].due - now() : 1000000000;
        struct timespec wait = { .tv_nsec = left < 0 ? 0 : left > 999999999 ? 999999999 : left };
        if (ppoll(&it, 1, &wait, NULL) > 0) {
            ssize_t n = read(end, input + held, INPUT - held);
            if (n <= 0) return 0;
            held += (size_t)n;
            char *line = input, *next;
            while ((next = memchr(line, '\n', held - (size_t)(line - input)))) {
                *next = 0;
                note(line, delay);
                line = next + 1;
            }
            held -= (size_t)(line - input);
            memmove(input, line, held);
        }
        answer(end);
    }
}
