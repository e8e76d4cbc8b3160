/* Loaded before a program: ends it, as SIGKILL does, at the call that changes files whose number is STOP_AT,
   counted from 1. With STOP_HALF a write is half done first, and what can't be done by half is done whole. */
#define _GNU_SOURCE
#include <dlfcn.h>
#include <fcntl.h>
#include <signal.h>
#include <stdarg.h>
#include <stdio.h>
#include <stdlib.h>
#include <sys/stat.h>
#include <sys/types.h>
#include <unistd.h>

static long calls;

static long number(const char *name)
{
    const char *text = getenv(name);
    return text ? atol(text) : 0;
}

/* Whether the program ends at this call. */
static int ends_here(void)
{
    return ++calls == number("STOP_AT");
}

static int is_half(void)
{
    return number("STOP_HALF") != 0;
}

static void end(void)
{
    raise(SIGKILL);
}

#define REAL(name) ((__typeof__(&name))dlsym(RTLD_NEXT, #name))

/* A call that can't be done by half. */
#define WHOLE(type, name, parameters, arguments)                                                                       \
    type name parameters                                                                                               \
    {                                                                                                                  \
        int ends = ends_here();                                                                                        \
        if (ends && !is_half())                                                                                        \
            end();                                                                                                     \
        type answer = REAL(name) arguments;                                                                            \
        if (ends)                                                                                                      \
            end();                                                                                                     \
        return answer;                                                                                                 \
    }

/* A call that writes. */
#define WRITES(name, parameters, whole, half)                                                                          \
    ssize_t name parameters                                                                                            \
    {                                                                                                                  \
        if (!ends_here())                                                                                              \
            return REAL(name) whole;                                                                                   \
        if (is_half())                                                                                                 \
            REAL(name) half;                                                                                           \
        end();                                                                                                         \
        return -1;                                                                                                     \
    }

/* An open that may make a file. */
#define OPENS(name, parameters, arguments)                                                                             \
    int name parameters                                                                                                \
    {                                                                                                                  \
        mode_t mode = 0;                                                                                               \
        if (!(flags & O_CREAT))                                                                                        \
            return REAL(name) arguments;                                                                               \
        va_list more;                                                                                                  \
        va_start(more, flags);                                                                                         \
        mode = va_arg(more, mode_t);                                                                                   \
        va_end(more);                                                                                                  \
        int ends = ends_here();                                                                                        \
        if (ends && !is_half())                                                                                        \
            end();                                                                                                     \
        int answer = REAL(name) arguments;                                                                             \
        if (ends)                                                                                                      \
            end();                                                                                                     \
        return answer;                                                                                                 \
    }

OPENS(open, (const char *path, int flags, ...), (path, flags, mode))
OPENS(open64, (const char *path, int flags, ...), (path, flags, mode))
OPENS(openat, (int folder, const char *path, int flags, ...), (folder, path, flags, mode))
OPENS(openat64, (int folder, const char *path, int flags, ...), (folder, path, flags, mode))

WRITES(write, (int file, const void *bytes, size_t count), (file, bytes, count), (file, bytes, count / 2))
WRITES(pwrite, (int file, const void *bytes, size_t count, off_t at), (file, bytes, count, at),
       (file, bytes, count / 2, at))
WRITES(pwrite64, (int file, const void *bytes, size_t count, off64_t at), (file, bytes, count, at),
       (file, bytes, count / 2, at))

WHOLE(int, ftruncate, (int file, off_t size), (file, size))
WHOLE(int, ftruncate64, (int file, off64_t size), (file, size))
WHOLE(int, fsync, (int file), (file))
WHOLE(int, fdatasync, (int file), (file))
WHOLE(int, rename, (const char *from, const char *to), (from, to))
WHOLE(int, unlink, (const char *path), (path))
WHOLE(int, chmod, (const char *path, mode_t mode), (path, mode))
WHOLE(int, fchmod, (int file, mode_t mode), (file, mode))
WHOLE(int, chown, (const char *path, uid_t user, gid_t group), (path, user, group))
WHOLE(int, fchown, (int file, uid_t user, gid_t group), (file, user, group))
