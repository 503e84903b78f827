/* A library for LD_PRELOAD: it counts the requests for memory of a process, and refuses the one that REFUSE_AT says, and
   with REFUSE_FROM=1 all later ones too. REFUSE_THREAD refuses that thread. When the process ends, it writes how many
   requests and threads were asked for to the file descriptor REFUSE_COUNT. */
#define _GNU_SOURCE
#include <dlfcn.h>
#include <errno.h>
#include <pthread.h>
#include <stdio.h>
#include <stdlib.h>
#include <sys/mman.h>
#include <sys/syscall.h>
#include <unistd.h>

void *__libc_malloc(size_t);
void *__libc_calloc(size_t, size_t);
void *__libc_realloc(void *, size_t);
void *__libc_memalign(size_t, size_t);

static long requests, threads, at, from, thread_at;
static int is_ready, count_to = -1;

static long number(const char *name) {
    const char *text = getenv(name);
    return text ? atol(text) : 0;
}

__attribute__((constructor)) static void begin(void) {
    at = number("REFUSE_AT");
    from = number("REFUSE_FROM");
    thread_at = number("REFUSE_THREAD");
    count_to = getenv("REFUSE_COUNT") ? (int)number("REFUSE_COUNT") : -1;
    is_ready = 1;
}

__attribute__((destructor)) static void end(void) {
    char text[64];
    int length = snprintf(text, sizeof text, "%ld %ld\n", requests, threads);
    is_ready = 0;
    if (count_to >= 0 && write(count_to, text, length) < 0)
        abort();
    count_to = -1;
}

/* A program may end by this call, which runs no destructor. */
void _exit(int status) {
    end();
    for (;;)
        syscall(SYS_exit_group, status);
}

static int is_refused(void) {
    if (!is_ready)
        return 0;
    long n = __atomic_add_fetch(&requests, 1, __ATOMIC_RELAXED);
    if (n != at && !(from && at && n > at))
        return 0;
    errno = ENOMEM;
    return 1;
}

void *malloc(size_t size) {
    return is_refused() ? NULL : __libc_malloc(size);
}

void *calloc(size_t count, size_t size) {
    return is_refused() ? NULL : __libc_calloc(count, size);
}

void *realloc(void *old, size_t size) {
    return is_refused() ? NULL : __libc_realloc(old, size);
}

void *aligned_alloc(size_t alignment, size_t size) {
    return is_refused() ? NULL : __libc_memalign(alignment, size);
}

int posix_memalign(void **made, size_t alignment, size_t size) {
    if (is_refused())
        return ENOMEM;
    *made = __libc_memalign(alignment, size);
    return *made ? 0 : ENOMEM;
}

void *mmap(void *address, size_t length, int protection, int flags, int file, off_t offset) {
    if (is_refused())
        return MAP_FAILED;
    return (void *)syscall(SYS_mmap, address, length, protection, flags, file, offset);
}

int pthread_create(pthread_t *thread, const pthread_attr_t *attributes, void *(*run)(void *), void *argument) {
    static int (*create)(pthread_t *, const pthread_attr_t *, void *(*)(void *), void *);
    if (!create)
        create = dlsym(RTLD_NEXT, "pthread_create");
    if (__atomic_add_fetch(&threads, 1, __ATOMIC_RELAXED) == thread_at)
        return EAGAIN;
    return create(thread, attributes, run, argument);
}
