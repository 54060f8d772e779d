/*
 * Refuses calls of a program, to see what it makes of it. Built as a library that is loaded ahead of the C library:
 *
 *     cc -shared -fPIC -O1 -o refuse.so tools/refuse.c -ldl
 *     REFUSE_COUNTS=counts LD_PRELOAD=./refuse.so vvols ..             counts the calls of each kind
 *     REFUSE_KIND=memory REFUSE_CALL=7 LD_PRELOAD=./refuse.so vvols .. refuses the seventh
 *
 * Kinds are `memory` (each allocation gives none), `read` and `write` (of the image: the call fails with EIO), `sync`,
 * `short` (a read or write of the image moves one byte alone, which is no fault: the program has to go on) and `stop` (the
 * program is killed ahead of its n-th write or sync of the image, as by a stop of the machine that loses nothing). With
 * REFUSE_FROM in place of REFUSE_CALL that call and each one behind it is refused. Counting begins when main does, and
 * calls on the descriptors 0, 1 and 2 are left alone.
 */
#define _GNU_SOURCE
#include <dlfcn.h>
#include <errno.h>
#include <fcntl.h>
#include <signal.h>
#include <stdio.h>
#include <stdlib.h>
#include <string.h>
#include <sys/types.h>
#include <sys/uio.h>
#include <unistd.h>

enum kind { MEMORY, READ, WRITE, SYNC, SHORT, STOP, KINDS };
static const char *const names[KINDS] = {"memory", "read", "write", "sync", "short", "stop"};

static unsigned long seen[KINDS];
static int kind = -1;
static unsigned long first, last;
static int counting;

/* Counts a call, and says whether it is to be refused. */
static int refused(enum kind of)
{
    if (!counting)
        return 0;
    unsigned long number = ++seen[of];
    return kind == (int)of && number >= first && number <= last;
}

/* A write or a sync of the image is about to be done. */
static void may_stop(void)
{
    if (refused(STOP))
        raise(SIGKILL);
}

__attribute__((constructor)) static void begin(void)
{
    const char *wanted = getenv("REFUSE_KIND"), *one = getenv("REFUSE_CALL"), *from = getenv("REFUSE_FROM");
    for (int i = 0; wanted && i < KINDS; i++)
        if (!strcmp(wanted, names[i]))
            kind = i;
    if (one)
        first = last = strtoul(one, NULL, 10);
    if (from)
        first = strtoul(from, NULL, 10), last = (unsigned long)-1;
    counting = 1;
}

__attribute__((destructor)) static void end(void)
{
    counting = 0;
    const char *to = getenv("REFUSE_COUNTS");
    if (!to)
        return;
    FILE *file = fopen(to, "w");
    if (!file)
        return;
    for (int i = 0; i < KINDS; i++)
        fprintf(file, "%s %lu\n", names[i], seen[i]);
    fclose(file);
}

#define REAL(type, name, ...)                                        \
    static type (*real)(__VA_ARGS__);                                \
    if (!real)                                                       \
        real = (type(*)(__VA_ARGS__))dlsym(RTLD_NEXT, name)

/* ---- memory: the C library's own doors to it, by which it can be entered without dlsym */

extern void *__libc_malloc(size_t);
extern void *__libc_calloc(size_t, size_t);
extern void *__libc_realloc(void *, size_t);
extern void *__libc_memalign(size_t, size_t);

static void *none(void)
{
    errno = ENOMEM;
    return NULL;
}

void *malloc(size_t n) { return refused(MEMORY) ? none() : __libc_malloc(n); }
void *calloc(size_t n, size_t size) { return refused(MEMORY) ? none() : __libc_calloc(n, size); }
void *realloc(void *at, size_t n) { return refused(MEMORY) ? none() : __libc_realloc(at, n); }
void *memalign(size_t to, size_t n) { return refused(MEMORY) ? none() : __libc_memalign(to, n); }
void *aligned_alloc(size_t to, size_t n) { return refused(MEMORY) ? none() : __libc_memalign(to, n); }

int posix_memalign(void **out, size_t to, size_t n)
{
    void *at = refused(MEMORY) ? NULL : __libc_memalign(to, n);
    if (!at)
        return ENOMEM;
    *out = at;
    return 0;
}

/* ---- the image: every descriptor but the three standard ones */

static ssize_t failed(void)
{
    errno = EIO;
    return -1;
}

static int is_image(int fd) { return fd > 2; }

#define MOVES(of, n, whole, part)                                    \
    if (!is_image(fd))                                               \
        return whole;                                                \
    if ((of) == WRITE)                                               \
        may_stop();                                                  \
    if (refused(of))                                                 \
        return failed();                                             \
    return (n) > 1 && refused(SHORT) ? part : whole

ssize_t read(int fd, void *to, size_t n)
{
    REAL(ssize_t, "read", int, void *, size_t);
    MOVES(READ, n, real(fd, to, n), real(fd, to, 1));
}

ssize_t pread(int fd, void *to, size_t n, off_t at)
{
    REAL(ssize_t, "pread", int, void *, size_t, off_t);
    MOVES(READ, n, real(fd, to, n, at), real(fd, to, 1, at));
}

ssize_t pread64(int fd, void *to, size_t n, off64_t at)
{
    REAL(ssize_t, "pread64", int, void *, size_t, off64_t);
    MOVES(READ, n, real(fd, to, n, at), real(fd, to, 1, at));
}

ssize_t write(int fd, const void *from, size_t n)
{
    REAL(ssize_t, "write", int, const void *, size_t);
    MOVES(WRITE, n, real(fd, from, n), real(fd, from, 1));
}

ssize_t pwrite(int fd, const void *from, size_t n, off_t at)
{
    REAL(ssize_t, "pwrite", int, const void *, size_t, off_t);
    MOVES(WRITE, n, real(fd, from, n, at), real(fd, from, 1, at));
}

ssize_t pwrite64(int fd, const void *from, size_t n, off64_t at)
{
    REAL(ssize_t, "pwrite64", int, const void *, size_t, off64_t);
    MOVES(WRITE, n, real(fd, from, n, at), real(fd, from, 1, at));
}

int fsync(int fd)
{
    REAL(int, "fsync", int);
    may_stop();
    return refused(SYNC) ? (int)failed() : real(fd);
}

int fdatasync(int fd)
{
    REAL(int, "fdatasync", int);
    may_stop();
    return refused(SYNC) ? (int)failed() : real(fd);
}

/* Lengthening the file, and opening it, count as writes: the image can't be made without them. */

int ftruncate(int fd, off_t n)
{
    REAL(int, "ftruncate", int, off_t);
    may_stop();
    return refused(WRITE) ? (int)failed() : real(fd, n);
}

int ftruncate64(int fd, off64_t n)
{
    REAL(int, "ftruncate64", int, off64_t);
    may_stop();
    return refused(WRITE) ? (int)failed() : real(fd, n);
}
