/* A library to preload: each read and write of a file below SHORT_BELOW takes or gives half of what was asked, and each fsync
   takes SLOW_SYNC microseconds more. */
#define _GNU_SOURCE
#include <dlfcn.h>
#include <stdio.h>
#include <stdlib.h>
#include <string.h>
#include <unistd.h>

static int is_below(int descriptor)
{
    char link[64], path[4096];
    const char *below = getenv("SHORT_BELOW");
    snprintf(link, sizeof link, "/proc/self/fd/%d", descriptor);
    ssize_t length = readlink(link, path, sizeof path - 1);
    if (!below || length <= 0)
        return 0;
    path[length] = 0;
    return strncmp(path, below, strlen(below)) == 0;
}

ssize_t read(int descriptor, void *data, size_t size)
{
    ssize_t (*next)(int, void *, size_t) = dlsym(RTLD_NEXT, "read");
    return next(descriptor, data, size > 1 && is_below(descriptor) ? size / 2 : size);
}

ssize_t write(int descriptor, const void *data, size_t size)
{
    ssize_t (*next)(int, const void *, size_t) = dlsym(RTLD_NEXT, "write");
    return next(descriptor, data, size > 1 && is_below(descriptor) ? size / 2 : size);
}

int fsync(int descriptor)
{
    int (*next)(int) = dlsym(RTLD_NEXT, "fsync");
    const char *microseconds = getenv("SLOW_SYNC");
    if (microseconds)
        usleep(atoi(microseconds));
    return next(descriptor);
}
