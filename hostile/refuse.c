/* Refuses calls to the C library of a program that is run with it in LD_PRELOAD, by their numbers. Words of the environment:
 *
 *   REFUSE_CALL  the calls that are counted: `memory` (malloc, calloc, realloc and what aligns), or the name of a function below
 *   REFUSE_AT    the number, from 1, of the call that is refused
 *   REFUSE_ON    1: each later one is refused as well
 *   REFUSE_AS    the error that is told, by its number; 0: a read, write or receipt moves one byte and is no error
 *   REFUSE_TELL  a descriptor, to which a byte is written at the first refusal
 *
 *   cc -O2 -shared -fPIC -o refuse.so refuse.c
 */
#define _GNU_SOURCE
#include <dlfcn.h>
#include <errno.h>
#include <fcntl.h>
#include <pthread.h>
#include <stdarg.h>
#include <stdatomic.h>
#include <stddef.h>
#include <stdlib.h>
#include <string.h>
#include <sys/epoll.h>
#include <sys/socket.h>
#include <sys/stat.h>
#include <sys/syscall.h>
#include <unistd.h>

extern void *__libc_malloc(size_t size);
extern void *__libc_calloc(size_t count, size_t size);
extern void *__libc_realloc(void *block, size_t size);
extern void *__libc_memalign(size_t alignment, size_t size);

static const char *counted = "";
static unsigned long first_refused;
static int all_later;
static int error = EIO;
static int told_to = -1;
static atomic_ulong calls;

static unsigned long number_in(const char *name, unsigned long usual) {
    const char *word = getenv(name);
    return word ? strtoul(word, NULL, 10) : usual;
}

__attribute__((constructor)) static void begin(void) {
    const char *name = getenv("REFUSE_CALL");
    first_refused = number_in("REFUSE_AT", 0);
    all_later = (int)number_in("REFUSE_ON", 0);
    error = (int)number_in("REFUSE_AS", EIO);
    told_to = (int)number_in("REFUSE_TELL", (unsigned long)-1);
    if (name) counted = name;
}

static int is_refused(const char *name) {
    if (!first_refused || strcmp(name, counted)) return 0;
    unsigned long call = atomic_fetch_add(&calls, 1) + 1;
    if (call == first_refused && told_to >= 0) syscall(SYS_write, told_to, "r", 1);
    return call == first_refused || (all_later && call > first_refused);
}

static void *no_memory(void) {
    errno = ENOMEM;
    return NULL;
}

void *malloc(size_t size) { return is_refused("memory") ? no_memory() : __libc_malloc(size); }

void *calloc(size_t count, size_t size) { return is_refused("memory") ? no_memory() : __libc_calloc(count, size); }

void *realloc(void *block, size_t size) { return is_refused("memory") ? no_memory() : __libc_realloc(block, size); }

void *memalign(size_t alignment, size_t size) {
    return is_refused("memory") ? no_memory() : __libc_memalign(alignment, size);
}

void *aligned_alloc(size_t alignment, size_t size) { return memalign(alignment, size); }

int posix_memalign(void **block, size_t alignment, size_t size) {
    void *taken = memalign(alignment, size);
    if (!taken) return ENOMEM;
    *block = taken;
    return 0;
}

/* A function that is refused by -1 and its error. */
#define REFUSABLE(result, name, parameters, ...)                                  \
    result name parameters {                                                      \
        static result(*real) parameters;                                          \
        if (!real) real = (result(*) parameters)dlsym(RTLD_NEXT, #name);          \
        if (is_refused(#name)) {                                                  \
            errno = error;                                                        \
            return -1;                                                            \
        }                                                                         \
        return real(__VA_ARGS__);                                                 \
    }

REFUSABLE(int, statx, (int at, const char *restrict path, int flags, unsigned mask, struct statx *restrict into), at, path, flags, mask, into)
REFUSABLE(int, socket, (int domain, int type, int protocol), domain, type, protocol)
REFUSABLE(int, setsockopt, (int socket, int level, int name, const void *value, socklen_t size), socket, level, name, value, size)
REFUSABLE(int, bind, (int socket, const struct sockaddr *address, socklen_t size), socket, address, size)
REFUSABLE(int, listen, (int socket, int most), socket, most)
REFUSABLE(int, accept4, (int socket, struct sockaddr *address, socklen_t *size, int flags), socket, address, size, flags)
REFUSABLE(int, epoll_create1, (int flags), flags)
REFUSABLE(int, epoll_ctl, (int poll, int what, int of, struct epoll_event *event), poll, what, of, event)
REFUSABLE(int, epoll_wait, (int poll, struct epoll_event *events, int most, int wait), poll, events, most, wait)

/* A function that moves bytes: with REFUSE_AS 0 it moves one. */
#define REFUSABLE_BYTES(name, parameters, size, ...)                              \
    ssize_t name parameters {                                                     \
        static ssize_t(*real) parameters;                                         \
        if (!real) real = (ssize_t(*) parameters)dlsym(RTLD_NEXT, #name);         \
        if (is_refused(#name)) {                                                  \
            errno = error;                                                        \
            if (error) return -1;                                                 \
            size = size > 0;                                                      \
        }                                                                         \
        return real(__VA_ARGS__);                                                 \
    }

REFUSABLE_BYTES(read, (int from, void *into, size_t size), size, from, into, size)
REFUSABLE_BYTES(write, (int to, const void *from, size_t size), size, to, from, size)
REFUSABLE_BYTES(recv, (int from, void *into, size_t size, int flags), size, from, into, size, flags)

int open(const char *path, int flags, ...) {
    static int (*real)(const char *, int, ...);
    va_list more;
    va_start(more, flags);
    mode_t mode = flags & (O_CREAT | O_TMPFILE) ? va_arg(more, mode_t) : 0;
    va_end(more);
    if (!real) real = (int (*)(const char *, int, ...))dlsym(RTLD_NEXT, "open");
    if (is_refused("open")) {
        errno = error;
        return -1;
    }
    return real(path, flags, mode);
}

int pthread_create(pthread_t *restrict thread, const pthread_attr_t *restrict how, void *(*run)(void *), void *restrict with) {
    static int (*real)(pthread_t *, const pthread_attr_t *, void *(*)(void *), void *);
    if (!real) real = (int (*)(pthread_t *, const pthread_attr_t *, void *(*)(void *), void *))dlsym(RTLD_NEXT, "pthread_create");
    if (is_refused("pthread_create")) return error;
    return real(thread, how, run, with);
}
