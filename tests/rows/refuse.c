/* Loaded before a program: at each allocation behind the first REFUSE_BEHIND whose number leaves
   REFUSE_REST when divided by REFUSE_EACH the process splits in two. One half is refused this
   memory, writes to the descriptors REFUSE_OUTPUT and REFUSE_FAULTS, and goes on to its end; the
   other one waits for it, and goes on as if nothing was. So each allocation is refused once, and
   nothing before it is done twice. Both halves have the same files. So the judge at the other end
   of the socket REFUSE_JUDGE is told of a split before it comes and, by its status, how the half
   ended, and answers each with a byte: in between it puts the files back. What the half unlinks
   goes to the folder REFUSE_GRAVE, under its inode's number. Without REFUSE_EACH nothing is
   refused, and at its end the program writes to REFUSE_OUTPUT how many allocations it made.

   Memory is had here too: a half that gives back all that the program had would touch all of it,
   and each page that it touches is copied. So blocks lie one behind the other, none is used twice,
   and whether one is in use stands apart. What is given back and isn't in use ends the program by a
   signal. */
#define _GNU_SOURCE
#include <dlfcn.h>
#include <errno.h>
#include <limits.h>
#include <stddef.h>
#include <stdint.h>
#include <stdio.h>
#include <stdlib.h>
#include <string.h>
#include <sys/mman.h>
#include <sys/stat.h>
#include <sys/wait.h>
#include <unistd.h>

/* The descriptors whose places are put back, and after how many seconds a half has hung. */
enum { FILES = 64, LONGEST = 30 };

/* How much memory there is; where blocks begin; and how much a large page has. */
#define ROOM ((size_t)1 << 28)
#define GRAIN ((size_t)16)
#define LARGE ((size_t)1 << 21)

static long count, each, rest, behind;
static int is_begun, is_refused, has_ended;
static char *memory;
static size_t used;
static uint8_t in_use[ROOM / GRAIN / 8];

static long number(const char *name)
{
    const char *text = getenv(name);
    return text ? atol(text) : 0;
}

/* Tells the judge a number, and waits for its answer. */
static void tell(int told)
{
    int judge = (int)number("REFUSE_JUDGE");
    char answer;
    if (write(judge, &told, sizeof told) != sizeof told || read(judge, &answer, 1) != 1)
        _exit(1);
}

/* This half is the one that is refused. */
static void begin_refused(void)
{
    is_refused = 1;
    alarm(LONGEST);
    close((int)number("REFUSE_JUDGE"));
    dup2((int)number("REFUSE_OUTPUT"), STDOUT_FILENO);
    dup2((int)number("REFUSE_FAULTS"), STDERR_FILENO);
}

/* Whether this half is the one that is refused. What it reads of a file the other one reads, too. */
static int splits(void)
{
    int status = 0;
    off_t places[FILES];
    tell(status);
    for (int file = 0; file < FILES; file++)
        places[file] = lseek(file, 0, SEEK_CUR);
    pid_t half = fork();
    if (half == 0) {
        begin_refused();
        return 1;
    }
    if (half < 0 || waitpid(half, &status, 0) != half)
        _exit(1);
    for (int file = 0; file < FILES; file++)
        if (places[file] >= 0)
            lseek(file, places[file], SEEK_SET);
    tell(status);
    return 0;
}

static int refuses(void)
{
    if (is_refused || has_ended)
        return 0;
    if (!is_begun) {
        is_begun = 1;
        each = number("REFUSE_EACH");
        rest = number("REFUSE_REST");
        behind = number("REFUSE_BEHIND");
    }
    return ++count > behind && each > 0 && count % each == rest && splits();
}

static char *place_of_memory(void)
{
    int flags = MAP_PRIVATE | MAP_ANONYMOUS | MAP_NORESERVE;
    char *place = mmap(NULL, ROOM + LARGE, PROT_READ | PROT_WRITE, flags, -1, 0);
    if (place == MAP_FAILED)
        abort();
    place += LARGE - (uintptr_t)place % LARGE;
    madvise(place, ROOM, MADV_HUGEPAGE);
    return place;
}

/* The size of a block, which stands before it. */
static size_t *size_of(const void *block)
{
    return (size_t *)block - 1;
}

/* A block that was in use isn't from here on, or the other way round. */
static void turn(const void *block, int was_in_use)
{
    size_t grain = (size_t)((char *)block - memory) / GRAIN;
    uint8_t bit = (uint8_t)(1 << grain % 8);
    if (grain >= ROOM / GRAIN || ((in_use[grain / 8] & bit) != 0) != was_in_use)
        abort();
    in_use[grain / 8] ^= bit;
}

static void *new_block(size_t alignment, size_t size)
{
    if (!memory)
        memory = place_of_memory();
    if (alignment < GRAIN)
        alignment = GRAIN;
    size_t at = (used + sizeof(size_t) + alignment - 1) / alignment * alignment;
    if (size > ROOM || at + size >= ROOM || refuses()) {
        errno = ENOMEM;
        return NULL;
    }
    used = at + size;
    *size_of(memory + at) = size;
    turn(memory + at, 0);
    return memory + at;
}

void *malloc(size_t size)
{
    return new_block(GRAIN, size);
}

void *calloc(size_t number_of, size_t size)
{
    size_t whole;
    return __builtin_mul_overflow(number_of, size, &whole) ? NULL : new_block(GRAIN, whole);
}

void free(void *block)
{
    if (block)
        turn(block, 1);
}

void *realloc(void *old, size_t size)
{
    void *block = new_block(GRAIN, size);
    if (block && old) {
        memcpy(block, old, *size_of(old) < size ? *size_of(old) : size);
        free(old);
    }
    return block;
}

void *aligned_alloc(size_t alignment, size_t size)
{
    return new_block(alignment, size);
}

void *memalign(size_t alignment, size_t size)
{
    return new_block(alignment, size);
}

int posix_memalign(void **place, size_t alignment, size_t size)
{
    void *block = new_block(alignment, size);
    if (!block)
        return ENOMEM;
    *place = block;
    return 0;
}

int unlink(const char *path)
{
    char grave[PATH_MAX];
    struct stat found;
    if (!is_refused || lstat(path, &found) != 0)
        return ((__typeof__(&unlink))dlsym(RTLD_NEXT, "unlink"))(path);
    unsigned long long inode = found.st_ino;
    snprintf(grave, sizeof grave, "%s/%llu", getenv("REFUSE_GRAVE"), inode);
    return rename(path, grave);
}

__attribute__((destructor)) static void end(void)
{
    has_ended = 1;
    if (each == 0)
        dprintf((int)number("REFUSE_OUTPUT"), "%ld", count);
}
