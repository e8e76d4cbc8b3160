/* Loaded before the program `acqd`: writes into the file ORDER, in their order, a line for each read that a
   connection gave something (`r 7`, 7 its descriptor), each write to one (`w 7`), and each sync of a file (`s`). */
#define _GNU_SOURCE
#include <dlfcn.h>
#include <errno.h>
#include <fcntl.h>
#include <stdio.h>
#include <stdlib.h>
#include <sys/socket.h>
#include <sys/syscall.h>
#include <unistd.h>

#define REAL(name) ((__typeof__(&name))dlsym(RTLD_NEXT, #name))

enum { DESCRIPTORS = 4096 };

static char is_connection[DESCRIPTORS];

static void note(char what, int file)
{
    static int order = -1;
    char line[20];
    if (order < 0)
        order = (int)syscall(SYS_openat, AT_FDCWD, getenv("ORDER"), O_WRONLY | O_CREAT | O_APPEND | O_CLOEXEC, 0600);
    int length = file < 0 ? snprintf(line, sizeof line, "%c\n", what)
                          : snprintf(line, sizeof line, "%c %d\n", what, file);
    if (syscall(SYS_write, order, line, length) != length)
        abort();
}

static ssize_t noted(char what, int file, ssize_t moved)
{
    int fault = errno;
    if (moved > 0 && file >= 0 && file < DESCRIPTORS && is_connection[file])
        note(what, file);
    errno = fault;
    return moved;
}

int accept4(int listener, struct sockaddr *peer, socklen_t *length, int flags)
{
    int file = REAL(accept4)(listener, peer, length, flags);
    if (file >= 0 && file < DESCRIPTORS)
        is_connection[file] = 1;
    return file;
}

ssize_t read(int file, void *bytes, size_t count)
{
    return noted('r', file, REAL(read)(file, bytes, count));
}

ssize_t recv(int file, void *bytes, size_t count, int flags)
{
    return noted('r', file, REAL(recv)(file, bytes, count, flags));
}

/* What goes out is noted before it does: the reader may be quicker than the note. */
ssize_t write(int file, const void *bytes, size_t count)
{
    noted('w', file, (ssize_t)count);
    return REAL(write)(file, bytes, count);
}

ssize_t send(int file, const void *bytes, size_t count, int flags)
{
    noted('w', file, (ssize_t)count);
    return REAL(send)(file, bytes, count, flags);
}

/* A sync is noted once it is done. */
static int synced(int answer)
{
    if (answer == 0)
        note('s', -1);
    return answer;
}

int fdatasync(int file)
{
    return synced(REAL(fdatasync)(file));
}

int fsync(int file)
{
    return synced(REAL(fsync)(file));
}
