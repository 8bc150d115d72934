/* Refuses one call that a program makes of the C library: for LD_PRELOAD (tests/hostile/refused.py).
 *
 * REFUSE=KIND:N refuses the Nth call of a kind: `alloc` (room for bytes), `open`, `read`, `write`, `sync`, `rename`;
 * with the kind `short` the Nth read or write of several bytes moves one. With the kind `ended` the process is killed
 * at the Nth call that could change a file or a folder. REFUSE_TOLD=FILE gets the number of calls of the kind, and
 * whether the refused one was made by another thread than the first: 8 bytes each.
 */
#define _GNU_SOURCE
#include <errno.h>
#include <fcntl.h>
#include <signal.h>
#include <stdarg.h>
#include <stdatomic.h>
#include <stdio.h>
#include <stdlib.h>
#include <string.h>
#include <sys/stat.h>
#include <sys/syscall.h>
#include <sys/uio.h>
#include <unistd.h>

static char kind[16];
static unsigned long wanted;
static _Atomic unsigned long count;
static _Atomic unsigned long apart;

__attribute__((constructor)) static void begin(void) {
    const char *said = getenv("REFUSE");
    const char *colon = said ? strchr(said, ':') : NULL;
    if (colon && colon - said < (long)sizeof kind) {
        memcpy(kind, said, colon - said);
        wanted = strtoul(colon + 1, NULL, 10);
    }
}

static void tell(void) {
    const char *name = getenv("REFUSE_TOLD");
    if (name) {
        unsigned long said[] = {count, apart};
        int file = syscall(SYS_openat, AT_FDCWD, name, O_WRONLY | O_CREAT | O_TRUNC, 0600);
        syscall(SYS_write, file, said, sizeof said);
    }
}

/* The program ends by this call, or by the return of main. */
void _exit(int status) {
    tell();
    for (;;) syscall(SYS_exit_group, status);
}

__attribute__((destructor)) static void end(void) { tell(); }

/* Whether this call of a kind is the one to be refused. */
static int is_refused(const char *called) {
    if (kind[0] != called[0] || strcmp(kind, called) || ++count != wanted) return 0;
    apart = syscall(SYS_gettid) != getpid();
    return 1;
}

/* Ends the process at a call that could change something, if it is the one. */
static void may_end(void) {
    if (is_refused("ended")) syscall(SYS_kill, getpid(), SIGKILL);
}

extern void *__libc_malloc(size_t), *__libc_calloc(size_t, size_t), *__libc_realloc(void *, size_t), *__libc_memalign(size_t, size_t);

void *malloc(size_t size) { return is_refused("alloc") ? (errno = ENOMEM, NULL) : __libc_malloc(size); }

void *calloc(size_t some, size_t size) { return is_refused("alloc") ? (errno = ENOMEM, NULL) : __libc_calloc(some, size); }

void *realloc(void *room, size_t size) { return is_refused("alloc") ? (errno = ENOMEM, NULL) : __libc_realloc(room, size); }

void *aligned_alloc(size_t align, size_t size) { return is_refused("alloc") ? (errno = ENOMEM, NULL) : __libc_memalign(align, size); }

int posix_memalign(void **room, size_t align, size_t size) {
    if (is_refused("alloc")) return ENOMEM;
    *room = __libc_memalign(align, size);
    return *room ? 0 : ENOMEM;
}

ssize_t read(int file, void *room, size_t size) {
    if (is_refused("read")) return errno = EIO, -1;
    return syscall(SYS_read, file, room, size > 1 && is_refused("short") ? 1 : size);
}

ssize_t write(int file, const void *bytes, size_t size) {
    may_end();
    if (is_refused("write")) return errno = EIO, -1;
    return syscall(SYS_write, file, bytes, size > 1 && is_refused("short") ? 1 : size);
}

ssize_t __write(int file, const void *bytes, size_t size) { return write(file, bytes, size); }

ssize_t writev(int file, const struct iovec *parts, int number) {
    may_end();
    if (is_refused("write")) return errno = EIO, -1;
    if (number > 0 && parts[0].iov_len > 1 && is_refused("short")) return syscall(SYS_write, file, parts[0].iov_base, 1);
    return syscall(SYS_writev, file, parts, number);
}

int openat(int folder, const char *name, int flags, ...) {
    va_list rest;
    va_start(rest, flags);
    int mode = va_arg(rest, int);
    va_end(rest);
    may_end();
    if (is_refused("open")) return errno = EIO, -1;
    return syscall(SYS_openat, folder, name, flags, mode);
}

int open(const char *name, int flags, ...) {
    va_list rest;
    va_start(rest, flags);
    int mode = va_arg(rest, int);
    va_end(rest);
    may_end();
    if (is_refused("open")) return errno = EIO, -1;
    return syscall(SYS_openat, AT_FDCWD, name, flags, mode);
}

int fsync(int file) {
    may_end();
    if (is_refused("sync")) return errno = EIO, -1;
    return syscall(SYS_fsync, file);
}

int rename(const char *from, const char *to) {
    may_end();
    if (is_refused("rename")) return errno = EIO, -1;
    return syscall(SYS_renameat2, AT_FDCWD, from, AT_FDCWD, to, 0);
}

int unlink(const char *name) {
    may_end();
    return syscall(SYS_unlinkat, AT_FDCWD, name, 0);
}

int fchmod(int file, mode_t mode) {
    may_end();
    return syscall(SYS_fchmod, file, mode);
}

int ftruncate(int file, off_t size) {
    may_end();
    return syscall(SYS_ftruncate, file, size);
}
