/* Loaded before a program: writes to the file RECORD, in order, each call of the program that changed a file,
   synced one or wrote to standard output, once it is done. A call is a line of its word, a place, how many
   bytes come behind the line, and a path, with a tab between two of them, and then these bytes: those that
   were written at the place, or behind `rename` the new path. `cut` has a new size as its place, and `made`
   is of a file that an open made. */
#define _GNU_SOURCE
#include <dlfcn.h>
#include <errno.h>
#include <fcntl.h>
#include <limits.h>
#include <stdarg.h>
#include <stdio.h>
#include <stdlib.h>
#include <string.h>
#include <sys/types.h>
#include <unistd.h>

#define REAL(name) ((__typeof__(&name))dlsym(RTLD_NEXT, #name))

static void put(int record, const void *bytes, size_t count)
{
    if (REAL(write)(record, bytes, count) != (ssize_t)count)
        abort();
}

static void note(const char *word, off_t place, const char *path, const void *bytes, size_t count)
{
    static int record = -1;
    char line[PATH_MAX + 64];
    int kept = errno, length;
    if (record < 0)
        record = REAL(open)(getenv("RECORD"), O_WRONLY | O_APPEND | O_CREAT | O_CLOEXEC, 0600);
    length = snprintf(line, sizeof line, "%s\t%lld\t%zu\t%s\n", word, (long long)place, count, path);
    put(record, line, (size_t)length);
    put(record, bytes, count);
    errno = kept;
}

/* The path of an open file. */
static const char *path_of(int file)
{
    static char path[PATH_MAX];
    char link[64];
    snprintf(link, sizeof link, "/proc/self/fd/%d", file);
    ssize_t length = readlink(link, path, sizeof path - 1);
    path[length < 0 ? 0 : length] = 0;
    return path;
}

/* A write of so many bytes. */
static ssize_t wrote(int file, const void *bytes, off_t at, ssize_t count)
{
    if (count > 0)
        note(file == STDOUT_FILENO ? "said" : "write", at, path_of(file), bytes, (size_t)count);
    return count;
}

static int done(const char *word, int file, off_t place, int answer)
{
    if (answer == 0)
        note(word, place, path_of(file), "", 0);
    return answer;
}

/* An open of a file, which was there before or wasn't, and may be emptied. */
static int opened(int file, int flags, int was_there)
{
    if (file >= 0 && (flags & O_CREAT) && !was_there)
        note("made", 0, path_of(file), "", 0);
    else if (file >= 0 && (flags & O_TRUNC))
        note("cut", 0, path_of(file), "", 0);
    return file;
}

#define OPENS(name, parameters, arguments, folder)                                                                     \
    int name parameters                                                                                                \
    {                                                                                                                  \
        int was_there = faccessat(folder, path, F_OK, AT_SYMLINK_NOFOLLOW) == 0;                                       \
        va_list more;                                                                                                  \
        va_start(more, flags);                                                                                         \
        mode_t mode = flags & O_CREAT ? va_arg(more, mode_t) : 0;                                                      \
        va_end(more);                                                                                                  \
        return opened(REAL(name) arguments, flags, was_there);                                                         \
    }

OPENS(open, (const char *path, int flags, ...), (path, flags, mode), AT_FDCWD)
OPENS(open64, (const char *path, int flags, ...), (path, flags, mode), AT_FDCWD)
OPENS(openat, (int folder, const char *path, int flags, ...), (folder, path, flags, mode), folder)
OPENS(openat64, (int folder, const char *path, int flags, ...), (folder, path, flags, mode), folder)

ssize_t write(int file, const void *bytes, size_t count)
{
    off_t at = lseek(file, 0, SEEK_CUR);
    return wrote(file, bytes, at, REAL(write)(file, bytes, count));
}

ssize_t pwrite(int file, const void *bytes, size_t count, off_t at)
{
    return wrote(file, bytes, at, REAL(pwrite)(file, bytes, count, at));
}

ssize_t pwrite64(int file, const void *bytes, size_t count, off64_t at)
{
    return wrote(file, bytes, at, REAL(pwrite64)(file, bytes, count, at));
}

int ftruncate(int file, off_t size)
{
    return done("cut", file, size, REAL(ftruncate)(file, size));
}

int ftruncate64(int file, off64_t size)
{
    return done("cut", file, size, REAL(ftruncate64)(file, size));
}

int fsync(int file)
{
    return done("sync", file, 0, REAL(fsync)(file));
}

int fdatasync(int file)
{
    return done("sync", file, 0, REAL(fdatasync)(file));
}

int rename(const char *from, const char *to)
{
    int answer = REAL(rename)(from, to);
    if (answer == 0)
        note("rename", 0, from, to, strlen(to));
    return answer;
}

int unlink(const char *path)
{
    int answer = REAL(unlink)(path);
    if (answer == 0)
        note("unlink", 0, path, "", 0);
    return answer;
}
