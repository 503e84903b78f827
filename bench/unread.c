/* A library for LD_PRELOAD: of the reads of standard input, the one that UNREAD_AT says fails. They are counted from 1. */
#define _GNU_SOURCE
#include <errno.h>
#include <stdlib.h>
#include <sys/syscall.h>
#include <unistd.h>

ssize_t read(int file, void *bytes, size_t count) {
    static long reads;
    const char *at = getenv("UNREAD_AT");
    if (file == 0 && at && ++reads == atol(at)) {
        errno = EIO;
        return -1;
    }
    return syscall(SYS_read, file, bytes, count);
}
