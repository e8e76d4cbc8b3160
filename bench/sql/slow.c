/* Loaded before a program: each sync takes three milliseconds, or so many microseconds as SLOW_SYNC says,
   as on a disk that is far away. */
#define _GNU_SOURCE
#include <dlfcn.h>
#include <stdlib.h>
#include <unistd.h>

static void wait(void)
{
    const char *text = getenv("SLOW_SYNC");
    usleep(text ? (useconds_t)atol(text) : 3000);
}

int fsync(int file)
{
    wait();
    return ((int (*)(int))dlsym(RTLD_NEXT, "fsync"))(file);
}

int fdatasync(int file)
{
    wait();
    return ((int (*)(int))dlsym(RTLD_NEXT, "fdatasync"))(file);
}
