/* Takes event lines over a book in SQLite, as a host in C does that is written with care (book.h). It reads
 * the lines that bench/sql.sh makes, and no others.
 *
 * Its arguments are "--group N", if so many events are to share a transaction, and the database,
 * ":memory:" for one in memory. One without tables becomes a new book. It prints how many events there
 * were, how many nanoseconds they took together, how many the last tenth of them took, and how many
 * sales were recorded. Reading the lines isn't timed. */
#include "book.h"
#include <time.h>

static struct event *events;
static size_t count;

/* ---- groups ---- */

static size_t group = 1, taken;

/* Begins the transaction of the next events, or goes on in it. */
static void begin(void) {
    if (taken % group == 0) run(BEGIN);
}

/* Commits behind the last event of a group. */
static void keep(void) {
    taken++;
    if (taken % group == 0) run(COMMIT);
}

/* ---- what sets a book up ---- */

static void add_range(const struct event *event) {
    number(OVERLAPPING, 1, event->low);
    number(OVERLAPPING, 2, event->high);
    if (number_or(OVERLAPPING, 0)) fail("a range that overlaps");
    number(ADD_A_RANGE, 1, event->low);
    number(ADD_A_RANGE, 2, event->high);
    text(ADD_A_RANGE, 3, event->issuer);
    number(ADD_A_RANGE, 4, event->hold_days);
    run(ADD_A_RANGE);
}

static void enrol(const struct event *event) {
    char currency[4];
    if (look_up_merchant(event->merchant, currency)) fail("a merchant twice");
    text(ADD_A_MERCHANT, 1, event->merchant);
    text(ADD_A_MERCHANT, 2, event->currency);
    number(ADD_A_MERCHANT, 3, event->reference);
    run(ADD_A_MERCHANT);
}

static void add_terminal(const struct event *event) {
    char currency[4];
    if (!look_up_merchant(event->merchant, currency)) fail("no merchant");
    if (look_up_terminal(event->merchant, event->terminal)) fail("a terminal twice");
    text(ADD_A_TERMINAL, 1, event->merchant);
    text(ADD_A_TERMINAL, 2, event->terminal);
    run(ADD_A_TERMINAL);
}

static void take_event(const struct event *event) {
    char reply[400];
    switch (event->kind) {
    case ADD_RANGE: add_range(event); break;
    case ENROL: enrol(event); break;
    case TERMINAL: add_terminal(event); break;
    case SALE: take_sale(event); break;
    default: take_answer(event, reply);
    }
}

/* ---- lines ---- */

/* The sale of a frame in hexadecimal. */
static int read_frame(struct event *event, const char *hex) {
    char message[SALE_BYTES];
    if (strlen(hex) != 2 * SALE_BYTES) return 0;
    for (size_t at = 0; at < SALE_BYTES; at++) {
        unsigned byte;
        if (sscanf(hex + 2 * at, "%2x", &byte) != 1) return 0;
        message[at] = (char)byte;
    }
    return read_sale(event, message);
}

static int read_event(struct event *event, const char *line) {
    char hex[400], verdict[20];
    memset(event, 0, sizeof *event);
    if (sscanf(line, "addrange,%lld,%lld,%11[^,],%lld", &event->low, &event->high, event->issuer,
               &event->hold_days) == 4) {
        event->kind = ADD_RANGE;
    } else if (sscanf(line, "enrol,%15[^,],%3[^,],%lld", event->merchant, event->currency,
                      &event->reference) == 3) {
        event->kind = ENROL;
    } else if (sscanf(line, "terminal,%15[^,],%8[^,]", event->merchant, event->terminal) == 2) {
        event->kind = TERMINAL;
    } else if (sscanf(line, "answer,%*d,%15[^,],%lld,%19[^,],%6[^,\n]", event->merchant,
                      &event->reference, verdict, event->code) == 4) {
        event->kind = ANSWER;
        return !strcmp(verdict, "approved");
    } else if (sscanf(line, "frame,%*d,%399[^,]", hex) == 1) {
        return read_frame(event, hex);
    } else {
        return 0;
    }
    return 1;
}

static void read_events(void) {
    char line[600];
    size_t room = 0;
    while (fgets(line, sizeof line, stdin)) {
        if (count == room) {
            room = room ? 2 * room : 1024;
            events = realloc(events, room * sizeof *events);
            if (!events) fail("no memory");
        }
        if (!read_event(&events[count++], line)) fail(line);
    }
}

static long long now(void) {
    struct timespec time;
    clock_gettime(CLOCK_MONOTONIC, &time);
    return time.tv_sec * 1000000000LL + time.tv_nsec;
}

static long long take(size_t from, size_t to) {
    long long start = now();
    for (size_t at = from; at < to; at++) {
        begin();
        take_event(&events[at]);
        keep();
    }
    /* What is left of a group is kept at the end. */
    if (to == count && taken % group != 0) run(COMMIT);
    return now() - start;
}

int main(int arguments, char **argument) {
    if (arguments == 4 && !strcmp(argument[1], "--group")) {
        group = strtoul(argument[2], NULL, 10);
        argument += 2;
        arguments -= 2;
    }
    if (arguments != 2 || group == 0) fail("[--group N] DATABASE");
    read_events();
    open_book(argument[1]);
    long long first = take(0, count - count / 10), last = take(count - count / 10, count), sales = 0;
    close_book();
    for (size_t at = 0; at < count; at++) sales += events[at].kind == SALE;
    printf("%zu %lld %lld %lld\n", count, first + last, last, sales);
    return 0;
}
