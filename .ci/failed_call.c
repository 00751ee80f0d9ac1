/* Preloaded into a program, it lets one of its calls to the system end otherwise. The words of the environment are: CALL, a
   kind of call, open, read, write, close, seek or link; NUMBER, which of this kind, counted from 1; END, how it ends: by the
   error of that number; `short`, with one byte at most; `zero`, with none; `full`, as on a disk that has room for half of what
   is to be written, and then for nothing; `killed`, the program, before the call. Which call it was it says on the standard error:
   the name of the file. Where CALL names no kind, no call ends otherwise. */
#define _GNU_SOURCE
#include <dlfcn.h>
#include <errno.h>
#include <fcntl.h>
#include <signal.h>
#include <stdarg.h>
#include <stdatomic.h>
#include <stdio.h>
#include <stdlib.h>
#include <string.h>
#include <sys/syscall.h>
#include <sys/types.h>
#include <sys/uio.h>
#include <unistd.h>

enum kind { OPEN, READ, WRITE, CLOSE, SEEK, LINK, KINDS };

static const char *const names[KINDS] = {"open", "read", "write", "close", "seek", "link"};
static atomic_long made[KINDS];
static long due;
static int kind = KINDS;
static const char *end;
static atomic_int is_full;

static void say(const char *text) {
    if (syscall(SYS_write, 2, text, strlen(text)) != (long)strlen(text))
        _exit(99);
}

__attribute__((constructor)) static void begin(void) {
    const char *call = getenv("CALL"), *number = getenv("NUMBER");
    end = getenv("END");
    due = number ? atol(number) : 0;
    for (int k = 0; k < KINDS && call; k++)
        if (!strcmp(call, names[k]))
            kind = k;
}

/* Whether it is this call; then it is said with the file's name, which is that of a descriptor where none is given. */
static int is_due(enum kind its, const char *name, int file) {
    char link[64], there[4096] = "";
    if (atomic_fetch_add(&made[its], 1) + 1 != due || (int)its != kind)
        return 0;
    if (!name) {
        snprintf(link, sizeof link, "/proc/self/fd/%d", file);
        if (syscall(SYS_readlinkat, AT_FDCWD, link, there, sizeof there - 1) < 0)
            strcpy(there, "?");
        name = there;
    }
    say(name);
    say("\n");
    if (!strcmp(end, "killed"))
        syscall(SYS_kill, getpid(), SIGKILL);
    return 1;
}

static long fail(void) {
    errno = atoi(end);
    return -1;
}

#define REAL(name) __typeof__(&name) real = (__typeof__(&name))dlsym(RTLD_NEXT, #name)

#define OPENS(name)                                                                                                              \
    int name(const char *path, int flags, ...) {                                                                                 \
        va_list rest;                                                                                                            \
        va_start(rest, flags);                                                                                                   \
        mode_t mode = flags & (O_CREAT | O_TMPFILE) ? va_arg(rest, mode_t) : 0;                                                  \
        va_end(rest);                                                                                                            \
        REAL(name);                                                                                                              \
        return is_due(OPEN, path, -1) ? (int)fail() : real(path, flags, mode);                                                   \
    }
OPENS(open)
OPENS(open64)

#define OPENS_AT(name)                                                                                                           \
    int name(int folder, const char *path, int flags, ...) {                                                                     \
        va_list rest;                                                                                                            \
        va_start(rest, flags);                                                                                                   \
        mode_t mode = flags & (O_CREAT | O_TMPFILE) ? va_arg(rest, mode_t) : 0;                                                  \
        va_end(rest);                                                                                                            \
        REAL(name);                                                                                                              \
        return is_due(OPEN, path, -1) ? (int)fail() : real(folder, path, flags, mode);                                           \
    }
OPENS_AT(openat)
OPENS_AT(openat64)

ssize_t read(int file, void *into, size_t count) {
    REAL(read);
    if (!is_due(READ, NULL, file))
        return real(file, into, count);
    if (!strcmp(end, "short"))
        return real(file, into, count ? 1 : 0);
    return fail();
}

static ssize_t write_some(int file, const void *bytes, size_t count) {
    return syscall(SYS_write, file, bytes, count);
}

static ssize_t cut_write(int file, const void *bytes, size_t count) {
    if (!strcmp(end, "short"))
        return write_some(file, bytes, count ? 1 : 0);
    if (!strcmp(end, "zero"))
        return 0;
    if (strcmp(end, "full"))
        return fail();
    atomic_store(&is_full, 1);
    return write_some(file, bytes, (count + 1) / 2);
}

ssize_t write(int file, const void *bytes, size_t count) {
    REAL(write);
    if (is_due(WRITE, NULL, file))
        return cut_write(file, bytes, count);
    if (atomic_load(&is_full)) {
        errno = ENOSPC;
        return -1;
    }
    return real(file, bytes, count);
}

ssize_t writev(int file, const struct iovec *parts, int count) {
    REAL(writev);
    if (is_due(WRITE, NULL, file))
        return cut_write(file, parts[0].iov_base, parts[0].iov_len);
    if (atomic_load(&is_full)) {
        errno = ENOSPC;
        return -1;
    }
    return real(file, parts, count);
}

/* The file is closed, whatever is said of it. */
int close(int file) {
    REAL(close);
    int fails = is_due(CLOSE, NULL, file), closed = real(file);
    return fails ? (int)fail() : closed;
}

off_t lseek(int file, off_t place, int from) {
    REAL(lseek);
    return is_due(SEEK, NULL, file) ? fail() : real(file, place, from);
}

off64_t lseek64(int file, off64_t place, int from) {
    REAL(lseek64);
    return is_due(SEEK, NULL, file) ? fail() : real(file, place, from);
}

ssize_t readlink(const char *path, char *into, size_t count) {
    REAL(readlink);
    return is_due(LINK, path, -1) ? fail() : real(path, into, count);
}

ssize_t readlinkat(int folder, const char *path, char *into, size_t count) {
    REAL(readlinkat);
    return is_due(LINK, path, -1) ? fail() : real(folder, path, into, count);
}
