/* Preloaded reads and writes, one of which fails or is short.
 *
 * From the start of `main` on the calls of one kind are counted: FAIL_IO_KIND is `open`, `read`, `out` (writes to standard
 * output) or `err` (writes to standard error). Call number FAIL_IO_AT (from 1) doesn't reach the system: it answers as
 * FAIL_IO_HOW says, which is the number of an error, or `zero`, for nothing read or written. `short` lets it through for one
 * byte alone. All other calls go on as ever. When that call comes, the file FAIL_IO_MARK gets the path of the file that it
 * is about, so that the caller sees that a call failed, and which.
 *
 * For glibc: it takes over `__libc_start_main` to see where `main` starts. */

#define _GNU_SOURCE
#include <dlfcn.h>
#include <errno.h>
#include <fcntl.h>
#include <limits.h>
#include <stdarg.h>
#include <stdio.h>
#include <stdlib.h>
#include <string.h>
#include <sys/syscall.h>
#include <sys/uio.h>
#include <unistd.h>

typedef int main_function(int, char **, char **);

static main_function *real_main;
static const char *kind = "", *how = "", *mark = "";
static long calls_until_failure; /* 0: nothing is counted, or the call has failed */

/* What becomes of a call. */
enum fate { GOES_ON, FAILS, IS_SHORT };

/* Writes the path into the file FAIL_IO_MARK. */
static void leave_mark(const char *path) {
    long file = syscall(SYS_openat, AT_FDCWD, mark, O_CREAT | O_TRUNC | O_WRONLY, 0600);
    if (file >= 0) {
        syscall(SYS_write, file, path, strlen(path));
        syscall(SYS_close, file);
    }
}

/* Counts a call of a kind, and answers what becomes of it. */
static enum fate fate_of(const char *of_kind, const char *path) {
    if (calls_until_failure == 0 || strcmp(kind, of_kind) != 0 || --calls_until_failure != 0) {
        return GOES_ON;
    }
    leave_mark(path);
    return strcmp(how, "short") == 0 ? IS_SHORT : FAILS;
}

/* The answer of a call that fails. */
static int failure(void) {
    if (strcmp(how, "zero") == 0) {
        return 0;
    }
    errno = (int)strtol(how, NULL, 10);
    return -1;
}

/* The same for a call with a file that is open. */
static enum fate fate_of_file(const char *of_kind, int file) {
    char link[64], path[PATH_MAX] = "standard input";
    if (file != STDIN_FILENO) {
        snprintf(link, sizeof link, "/proc/self/fd/%d", file);
        ssize_t len = readlink(link, path, sizeof path - 1);
        path[len < 0 ? 0 : len] = 0;
    }
    return fate_of(of_kind, path);
}

static enum fate fate_of_write(int file) {
    switch (file) {
    case STDOUT_FILENO:
        return fate_of_file("out", file);
    case STDERR_FILENO:
        return fate_of_file("err", file);
    default:
        return GOES_ON;
    }
}

static int open_counted(int folder, const char *path, int flags, mode_t mode) {
    if (fate_of("open", path) == FAILS) {
        return failure();
    }
    return (int)syscall(SYS_openat, folder, path, flags, mode);
}

int open(const char *path, int flags, ...) {
    va_list rest;
    va_start(rest, flags);
    mode_t mode = flags & (O_CREAT | O_TMPFILE) ? va_arg(rest, mode_t) : 0;
    va_end(rest);
    return open_counted(AT_FDCWD, path, flags, mode);
}

int openat(int folder, const char *path, int flags, ...) {
    va_list rest;
    va_start(rest, flags);
    mode_t mode = flags & (O_CREAT | O_TMPFILE) ? va_arg(rest, mode_t) : 0;
    va_end(rest);
    return open_counted(folder, path, flags, mode);
}

ssize_t read(int file, void *bytes, size_t len) {
    switch (fate_of_file("read", file)) {
    case FAILS:
        return failure();
    case IS_SHORT:
        return syscall(SYS_read, file, bytes, len == 0 ? 0 : 1);
    default:
        return syscall(SYS_read, file, bytes, len);
    }
}

ssize_t write(int file, const void *bytes, size_t len) {
    switch (fate_of_write(file)) {
    case FAILS:
        return failure();
    case IS_SHORT:
        return syscall(SYS_write, file, bytes, len == 0 ? 0 : 1);
    default:
        return syscall(SYS_write, file, bytes, len);
    }
}

ssize_t writev(int file, const struct iovec *parts, int count) {
    switch (fate_of_write(file)) {
    case FAILS:
        return failure();
    case IS_SHORT:
        for (int i = 0; i < count; i++) {
            if (parts[i].iov_len > 0) {
                return syscall(SYS_write, file, parts[i].iov_base, 1);
            }
        }
        return 0;
    default:
        return syscall(SYS_writev, file, parts, count);
    }
}

static int counted_main(int argc, char **argv, char **envp) {
    const char *at = getenv("FAIL_IO_AT");
    if (at != NULL && getenv("FAIL_IO_KIND") != NULL && getenv("FAIL_IO_HOW") != NULL && getenv("FAIL_IO_MARK") != NULL) {
        kind = getenv("FAIL_IO_KIND");
        how = getenv("FAIL_IO_HOW");
        mark = getenv("FAIL_IO_MARK");
        calls_until_failure = strtol(at, NULL, 10);
    }
    return real_main(argc, argv, envp);
}

int __libc_start_main(main_function *main, int argc, char **argv, void (*init)(void), void (*fini)(void),
                      void (*rtld_fini)(void), void *stack_end) {
    int (*start)(main_function *, int, char **, void (*)(void), void (*)(void), void (*)(void), void *);
    *(void **)&start = dlsym(RTLD_NEXT, "__libc_start_main");
    real_main = main;
    return start(counted_main, argc, argv, init, fini, rtld_fini, stack_end);
}
