/* Loaded before the program `acqd`: its clocks show, and its calls on connections and standard streams go, as the
   file CALLS says. A test writes to that file while the program runs; calls.py has what stands in it. */
#define _GNU_SOURCE
#include <dlfcn.h>
#include <errno.h>
#include <fcntl.h>
#include <stdint.h>
#include <stdlib.h>
#include <string.h>
#include <sys/mman.h>
#include <sys/socket.h>
#include <sys/syscall.h>
#include <time.h>
#include <unistd.h>

#define REAL(name) ((__typeof__(&name))dlsym(RTLD_NEXT, #name))

enum { DESCRIPTORS = 4096 };

/* What a clock shows. */
enum { AS_IT_IS, SHOWN, UNREAD };

struct shown {
    /* One that is shown goes on by `step` nanoseconds behind each look. */
    int64_t how, seconds, nanoseconds, step;
};

/* How the calls on a descriptor go; -1 is without a bound. */
struct calls {
    /* A read gives so many bytes at most, and the one after so many reads fails. */
    int64_t piece, reads;
    /* A write takes so many bytes at most, and the one after so many bytes fails. */
    int64_t taken, room;
    /* By this number; with 0 a write takes nothing. EINTR comes once, others again and again. */
    int64_t fault;
};

static struct told {
    struct shown since_1970, monotonic;
    /* Of the standard streams, and of each connection from when it is taken. */
    struct calls calls;
    int64_t has_no_names;
} *told;

static struct calls calls_of[DESCRIPTORS];

/* What the file says; it says nothing to a program of another name, as to one that begins `acqd`. */
static struct told *now(void)
{
    static int has_looked;
    if (has_looked)
        return told;
    has_looked = 1;
    const char *path = getenv("CALLS");
    if (!path || strcmp(program_invocation_short_name, "acqd") != 0)
        return NULL;
    int file = (int)syscall(SYS_openat, AT_FDCWD, path, O_RDWR | O_CLOEXEC);
    void *found = mmap(NULL, sizeof *told, PROT_READ | PROT_WRITE, MAP_SHARED, file, 0);
    if (file < 0 || found == MAP_FAILED)
        abort();
    syscall(SYS_close, file);
    told = found;
    calls_of[STDIN_FILENO] = calls_of[STDOUT_FILENO] = told->calls;
    return told;
}

/* The calls on a descriptor, where they don't go as always. */
static struct calls *calls_on(int file)
{
    static const struct calls none;
    if (!now() || file < 0 || file >= DESCRIPTORS || memcmp(&calls_of[file], &none, sizeof none) == 0)
        return NULL;
    return &calls_of[file];
}

static struct shown *shown_by(clockid_t clock)
{
    if (!now())
        return NULL;
    return clock == CLOCK_REALTIME ? &told->since_1970 : clock == CLOCK_MONOTONIC ? &told->monotonic : NULL;
}

int clock_gettime(clockid_t clock, struct timespec *time)
{
    struct shown *shown = shown_by(clock);
    if (!shown || shown->how == AS_IT_IS)
        return (int)syscall(SYS_clock_gettime, clock, time);
    if (shown->how == UNREAD) {
        errno = EINVAL;
        return -1;
    }
    time->tv_sec = shown->seconds;
    time->tv_nsec = shown->nanoseconds;
    shown->nanoseconds += shown->step;
    shown->seconds += shown->nanoseconds / 1000000000;
    shown->nanoseconds %= 1000000000;
    return 0;
}

static int taken(int file)
{
    if (now() && file >= 0 && file < DESCRIPTORS)
        calls_of[file] = told->calls;
    return file;
}

int accept4(int listener, struct sockaddr *peer, socklen_t *length, int flags)
{
    return taken(REAL(accept4)(listener, peer, length, flags));
}

int getsockname(int file, struct sockaddr *name, socklen_t *length)
{
    if (now() && told->has_no_names) {
        errno = ENOBUFS;
        return -1;
    }
    return REAL(getsockname)(file, name, length);
}

/* A call that fails by its number. Behind it a close is to reset nothing: what came is thrown away. */
static ssize_t failed(int file, struct calls *calls, int64_t *left)
{
    char thrown_away[4096];
    if (calls->fault == EINTR)
        *left = -1;
    else if (calls->fault != EAGAIN)
        while (syscall(SYS_recvfrom, file, thrown_away, sizeof thrown_away, MSG_DONTWAIT, NULL, NULL) > 0)
            ;
    errno = (int)calls->fault;
    return calls->fault == 0 ? 0 : -1;
}

static size_t least(size_t count, int64_t bound)
{
    return bound >= 0 && (uint64_t)bound < count ? (size_t)bound : count;
}

#define READS(name, parameters, arguments)                                                                             \
    ssize_t name parameters                                                                                            \
    {                                                                                                                  \
        struct calls *calls = calls_on(file);                                                                          \
        if (!calls)                                                                                                    \
            return REAL(name) arguments;                                                                               \
        if (calls->reads == 0)                                                                                         \
            return failed(file, calls, &calls->reads);                                                                 \
        count = least(count, calls->piece);                                                                            \
        ssize_t answer = REAL(name) arguments;                                                                         \
        if (answer >= 0 && calls->reads > 0)                                                                           \
            calls->reads--;                                                                                            \
        return answer;                                                                                                 \
    }

#define WRITES(name, parameters, arguments)                                                                            \
    ssize_t name parameters                                                                                            \
    {                                                                                                                  \
        struct calls *calls = calls_on(file);                                                                          \
        if (!calls)                                                                                                    \
            return REAL(name) arguments;                                                                               \
        if (calls->room == 0 && count > 0)                                                                             \
            return failed(file, calls, &calls->room);                                                                  \
        count = least(least(count, calls->taken), calls->room);                                                        \
        ssize_t answer = REAL(name) arguments;                                                                         \
        if (answer > 0 && calls->room > 0)                                                                             \
            calls->room -= answer;                                                                                     \
        return answer;                                                                                                 \
    }

READS(read, (int file, void *bytes, size_t count), (file, bytes, count))
READS(recv, (int file, void *bytes, size_t count, int flags), (file, bytes, count, flags))
WRITES(write, (int file, const void *bytes, size_t count), (file, bytes, count))
WRITES(send, (int file, const void *bytes, size_t count, int flags), (file, bytes, count, flags))

/* Another file or connection has its number now. */
int close(int file)
{
    if (file >= 0 && file < DESCRIPTORS)
        memset(&calls_of[file], 0, sizeof calls_of[file]);
    return REAL(close)(file);
}
