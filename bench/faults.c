// Stands before the C library in a program and lets one of its calls fail: bench/faults says which, and hears whether it came.
//
// FAULT is the kind of the call and of the fault, FAULT_AT its number, counted from 1, and FAULT_FD where it is told. FAULT_MOST is how
// many bytes each read and write of the standard streams moves at most.
#define _GNU_SOURCE
#include <dlfcn.h>
#include <errno.h>
#include <fcntl.h>
#include <pthread.h>
#include <stdarg.h>
#include <stdatomic.h>
#include <stdio.h>
#include <stdlib.h>
#include <string.h>
#include <sys/syscall.h>
#include <sys/uio.h>
#include <unistd.h>

static const char *kind = "";
static long at, most;
static int told = -1;
static atomic_long calls, bytes_read, bytes_written;

__attribute__((constructor)) static void begin(void) {
    const char *said = getenv("FAULT");
    kind = said ? said : "";
    at = (said = getenv("FAULT_AT")) ? atol(said) : 0;
    most = (said = getenv("FAULT_MOST")) ? atol(said) : 0;
    told = (said = getenv("FAULT_FD")) ? atoi(said) : -1;
    calls = 0;
}

// Whether this call of a kind is the one that fails. It tells so, with the stream, and what has been read and written before.
static int fails(const char *which, int stream) {
    char line[80];
    if (strcmp(kind, which) || ++calls != at) return 0;
    int len = snprintf(line, sizeof line, "%d %ld %ld\n", stream, (long)bytes_read, (long)bytes_written);
    return syscall(SYS_write, told, line, len), 1;
}

#define NEXT(name) ((__typeof__(&name))dlsym(RTLD_NEXT, #name))

extern void *__libc_malloc(size_t), *__libc_calloc(size_t, size_t), *__libc_realloc(void *, size_t);

static int refused(void) { return fails("alloc", -1) ? (errno = ENOMEM) : 0; }
void *malloc(size_t size) { return refused() ? NULL : __libc_malloc(size); }
void *calloc(size_t count, size_t size) { return refused() ? NULL : __libc_calloc(count, size); }
void *realloc(void *old, size_t size) { return refused() ? NULL : __libc_realloc(old, size); }

// How many bytes a read or a write may move, or -1 where it fails.
static ssize_t allowed(const char *which, int stream, size_t len) {
    if (fails(which, stream)) return errno = EIO, -1;
    if (fails("interrupt", stream)) return errno = EINTR, -1;
    if (len > 1 && fails("short", stream)) return 1;
    return most > 0 && stream <= 2 && len > (size_t)most ? most : (ssize_t)len;
}

ssize_t read(int stream, void *into, size_t len) {
    ssize_t may = allowed("read", stream, len);
    ssize_t done = may < 0 ? may : syscall(SYS_read, stream, into, (size_t)may);
    if (stream == 0 && done > 0) bytes_read += done;
    return done;
}

ssize_t write(int stream, const void *from, size_t len) {
    ssize_t may = allowed("write", stream, len);
    ssize_t done = may < 0 ? may : syscall(SYS_write, stream, from, (size_t)may);
    if (stream == 1 && done > 0) bytes_written += done;
    return done;
}

ssize_t __write(int stream, const void *from, size_t len) { return write(stream, from, len); }

// A write of several pieces is one of its first piece that isn't empty.
ssize_t writev(int stream, const struct iovec *pieces, int count) {
    while (count > 1 && !pieces->iov_len) pieces++, count--;
    return count ? write(stream, pieces->iov_base, pieces->iov_len) : 0;
}

static int refused_open(void) { return fails("open", -1) ? (errno = EACCES) : 0; }

int openat(int folder, const char *name, int flags, ...) {
    va_list rest;
    va_start(rest, flags);
    int mode = flags & O_CREAT ? va_arg(rest, int) : 0;
    va_end(rest);
    return refused_open() ? -1 : (int)syscall(SYS_openat, folder, name, flags, mode);
}

int open(const char *name, int flags, ...) {
    va_list rest;
    va_start(rest, flags);
    int mode = flags & O_CREAT ? va_arg(rest, int) : 0;
    va_end(rest);
    return refused_open() ? -1 : (int)syscall(SYS_openat, AT_FDCWD, name, flags, mode);
}

int pthread_create(pthread_t *thread, const pthread_attr_t *attr, void *(*run)(void *), void *with) {
    return fails("thread", -1) ? EAGAIN : NEXT(pthread_create)(thread, attr, run, with);
}
