/*
 * A library to be preloaded, which refuses what a program asks of the C library.
 *
 *     cc -O2 -shared -fPIC -o refuse.so refuse.c
 *     REFUSE=alloc REFUSE_AT=7 TALLY=counts LD_PRELOAD=./refuse.so PROGRAM ..
 *
 * It counts, from the program's `main` on and over all threads, its allocations, opens, reads, writes, started
 * threads and seeks.
 * Of the kind REFUSE (alloc, open, read, write, error, thread, seek) the call number REFUSE_AT fails, and where
 * REFUSE_ON is set each later one too. `write` is a write elsewhere than on standard error, `error` one there.
 * REFUSE_HOW says how: `fail` (the default), `short` (a read or write of several bytes moves one), or
 * `again` (a read or write is interrupted before it moves a byte).
 * The file TALLY gets the counts, in the order above, and then how many calls were refused: eight numbers of
 * 64 bits. It is mapped, so that the counts stand there however the program ends.
 */
#define _GNU_SOURCE
#include <dlfcn.h>
#include <errno.h>
#include <fcntl.h>
#include <pthread.h>
#include <stdarg.h>
#include <stdatomic.h>
#include <stdint.h>
#include <stdlib.h>
#include <string.h>
#include <sys/mman.h>
#include <sys/syscall.h>
#include <sys/types.h>
#include <sys/uio.h>
#include <unistd.h>

extern void *__libc_malloc(size_t);
extern void *__libc_calloc(size_t, size_t);
extern void *__libc_realloc(void *, size_t);
extern void *__libc_memalign(size_t, size_t);

enum kind { ALLOC, OPEN, READ, WRITE, ERROR, THREAD, SEEK, KINDS };
static const char *const names[KINDS] = {"alloc", "open", "read", "write", "error", "thread", "seek"};
enum manner { FAIL, SHORT, AGAIN };

static _Atomic uint64_t unseen[KINDS + 1];
static _Atomic uint64_t *counts = unseen;
static _Atomic int counting;
static int refused_kind = -1;
static uint64_t refused_at;
static int refused_on;
static enum manner manner = FAIL;

/* Counts a call, and tells whether it is one to refuse. */
static int is_refused(enum kind kind) {
    if (!counting)
        return 0;
    uint64_t number = atomic_fetch_add(&counts[kind], 1) + 1;
    if ((int)kind != refused_kind || number < refused_at || (number > refused_at && !refused_on))
        return 0;
    atomic_fetch_add(&counts[KINDS], 1);
    return 1;
}

void *malloc(size_t size) {
    if (is_refused(ALLOC)) {
        errno = ENOMEM;
        return NULL;
    }
    return __libc_malloc(size);
}

void *calloc(size_t count, size_t size) {
    if (is_refused(ALLOC)) {
        errno = ENOMEM;
        return NULL;
    }
    return __libc_calloc(count, size);
}

void *realloc(void *old, size_t size) {
    if (is_refused(ALLOC)) {
        errno = ENOMEM;
        return NULL;
    }
    return __libc_realloc(old, size);
}

void *memalign(size_t alignment, size_t size) {
    if (is_refused(ALLOC)) {
        errno = ENOMEM;
        return NULL;
    }
    return __libc_memalign(alignment, size);
}

void *aligned_alloc(size_t alignment, size_t size) { return memalign(alignment, size); }

int posix_memalign(void **made, size_t alignment, size_t size) {
    void *block = memalign(alignment, size);
    if (!block)
        return ENOMEM;
    *made = block;
    return 0;
}

static int opened(int folder, const char *path, int flags, mode_t mode) {
    if (is_refused(OPEN)) {
        errno = EACCES;
        return -1;
    }
    return (int)syscall(SYS_openat, folder, path, flags, mode);
}

static mode_t mode_of(int flags, va_list rest) {
    return flags & (O_CREAT | __O_TMPFILE) ? va_arg(rest, mode_t) : 0;
}

#define OPENS(name)                                     \
    int name(const char *path, int flags, ...) {        \
        va_list rest;                                   \
        va_start(rest, flags);                          \
        mode_t mode = mode_of(flags, rest);             \
        va_end(rest);                                   \
        return opened(AT_FDCWD, path, flags, mode);     \
    }

#define OPENS_AT(name)                                          \
    int name(int folder, const char *path, int flags, ...) {    \
        va_list rest;                                           \
        va_start(rest, flags);                                  \
        mode_t mode = mode_of(flags, rest);                     \
        va_end(rest);                                           \
        return opened(folder, path, flags, mode);               \
    }

OPENS(open)
OPENS(open64)
OPENS_AT(openat)
OPENS_AT(openat64)

/* How many bytes a read or write of so many moves; -1 where it fails. */
static ssize_t moved(enum kind kind, size_t count) {
    if (!is_refused(kind))
        return (ssize_t)count;
    if (manner == SHORT)
        return count > 1 ? 1 : (ssize_t)count;
    errno = manner == AGAIN ? EINTR : kind == READ ? EIO : ENOSPC;
    return -1;
}

ssize_t read(int file, void *bytes, size_t count) {
    ssize_t some = moved(READ, count);
    return some < 0 ? some : syscall(SYS_read, file, bytes, (size_t)some);
}

ssize_t pread(int file, void *bytes, size_t count, off_t at) {
    ssize_t some = moved(READ, count);
    return some < 0 ? some : syscall(SYS_pread64, file, bytes, (size_t)some, at);
}

ssize_t pread64(int file, void *bytes, size_t count, off_t at) { return pread(file, bytes, count, at); }

ssize_t write(int file, const void *bytes, size_t count) {
    ssize_t some = moved(file == STDERR_FILENO ? ERROR : WRITE, count);
    return some < 0 ? some : syscall(SYS_write, file, bytes, (size_t)some);
}

ssize_t __write(int file, const void *bytes, size_t count) { return write(file, bytes, count); }

ssize_t writev(int file, const struct iovec *parts, int count) {
    for (int i = 0; i < count; i++)
        if (parts[i].iov_len)
            return write(file, parts[i].iov_base, parts[i].iov_len);
    return write(file, "", 0);
}

off_t lseek(int file, off_t to, int from) {
    if (is_refused(SEEK)) {
        errno = EIO;
        return -1;
    }
    return syscall(SYS_lseek, file, to, from);
}

off_t lseek64(int file, off_t to, int from) { return lseek(file, to, from); }

int pthread_create(pthread_t *made, const pthread_attr_t *how, void *(*run)(void *), void *with) {
    static int (*real)(pthread_t *, const pthread_attr_t *, void *(*)(void *), void *);
    if (!real)
        real = (int (*)(pthread_t *, const pthread_attr_t *, void *(*)(void *), void *))dlsym(RTLD_NEXT, "pthread_create");
    if (is_refused(THREAD))
        return EAGAIN;
    return real(made, how, run, with);
}

static int (*the_main)(int, char **, char **);

static void read_wishes(void) {
    const char *kind = getenv("REFUSE"), *at = getenv("REFUSE_AT"), *how = getenv("REFUSE_HOW"), *tally = getenv("TALLY");
    for (int i = 0; kind && i < KINDS; i++)
        if (!strcmp(kind, names[i]))
            refused_kind = i;
    refused_at = at ? strtoull(at, NULL, 10) : 0;
    if (refused_at == 0)
        refused_kind = -1;
    refused_on = getenv("REFUSE_ON") != NULL;
    if (how)
        manner = !strcmp(how, "short") ? SHORT : !strcmp(how, "again") ? AGAIN : FAIL;
    if (tally) {
        int file = (int)syscall(SYS_openat, AT_FDCWD, tally, O_RDWR | O_CREAT, 0600);
        if (file < 0 || ftruncate(file, sizeof unseen) != 0)
            _exit(99);
        void *map = mmap(NULL, sizeof unseen, PROT_READ | PROT_WRITE, MAP_SHARED, file, 0);
        if (map == MAP_FAILED)
            _exit(99);
        close(file);
        memset(map, 0, sizeof unseen);
        counts = map;
    }
}

static int watched_main(int argc, char **argv, char **environment) {
    read_wishes();
    counting = 1;
    int status = the_main(argc, argv, environment);
    counting = 0;
    return status;
}

int __libc_start_main(int (*program_main)(int, char **, char **), int argc, char **argv, void (*begin)(void), void (*end)(void),
                      void (*loader_end)(void), void *stack_end) {
    int (*real)(int (*)(int, char **, char **), int, char **, void (*)(void), void (*)(void), void (*)(void), void *) =
        (int (*)(int (*)(int, char **, char **), int, char **, void (*)(void), void (*)(void), void (*)(void), void *))dlsym(
            RTLD_NEXT, "__libc_start_main");
    the_main = program_main;
    return real(watched_main, argc, argv, begin, end, loader_end, stack_end);
}
