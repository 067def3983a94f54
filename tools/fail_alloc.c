/* A preloaded allocator that refuses one call, or all from one on.
 *
 * Calls of malloc, calloc, realloc, aligned_alloc and posix_memalign are counted together, from the start of `main`
 * on. Call number FAIL_ALLOC_AT (from 1) answers that there is no memory; all others go to the C library. Where
 * FAIL_ALLOC_FROM is set in its place, that call and all after it answer so. When the first such call comes, the file
 * FAIL_ALLOC_MARK is made, so that the caller sees that a call was refused.
 *
 * For glibc: it takes over `__libc_start_main` to see where `main` starts. */

#define _GNU_SOURCE
#include <dlfcn.h>
#include <errno.h>
#include <fcntl.h>
#include <stddef.h>
#include <stdlib.h>
#include <unistd.h>

extern void *__libc_malloc(size_t size);
extern void *__libc_calloc(size_t count, size_t size);
extern void *__libc_realloc(void *old, size_t size);
extern void *__libc_memalign(size_t alignment, size_t size);

typedef int main_function(int, char **, char **);

static main_function *real_main;
static long calls_until_refusal; /* 0: nothing is counted, or nothing more is refused */
static int refuses_rest;         /* whether all calls after the first refused one are refused, too */
static const char *mark;         /* NULL: no file is to be made, or it was made */

/* Makes the file that says that a call was refused. */
static void make_mark(void) {
    if (mark != NULL) {
        int file = open(mark, O_CREAT | O_WRONLY, 0600);
        if (file >= 0) {
            close(file);
        }
        mark = NULL;
    }
}

/* Counts a call, and answers whether it is to be refused. */
static int is_refused(void) {
    if (calls_until_refusal == 0 || --calls_until_refusal != 0) {
        return 0;
    }
    calls_until_refusal = refuses_rest;
    make_mark();
    errno = ENOMEM;
    return 1;
}

void *malloc(size_t size) {
    return is_refused() ? NULL : __libc_malloc(size);
}

void *calloc(size_t count, size_t size) {
    return is_refused() ? NULL : __libc_calloc(count, size);
}

void *realloc(void *old, size_t size) {
    return is_refused() ? NULL : __libc_realloc(old, size);
}

void *aligned_alloc(size_t alignment, size_t size) {
    return is_refused() ? NULL : __libc_memalign(alignment, size);
}

int posix_memalign(void **result, size_t alignment, size_t size) {
    if (is_refused()) {
        return ENOMEM;
    }
    void *block = __libc_memalign(alignment, size);
    if (block == NULL) {
        return ENOMEM;
    }
    *result = block;
    return 0;
}

static int counted_main(int argc, char **argv, char **envp) {
    const char *at = getenv("FAIL_ALLOC_AT");
    const char *from = getenv("FAIL_ALLOC_FROM");
    const char *first = from == NULL ? at : from;
    mark = getenv("FAIL_ALLOC_MARK");
    refuses_rest = from != NULL;
    calls_until_refusal = first == NULL ? 0 : strtol(first, NULL, 10);
    return real_main(argc, argv, envp);
}

int __libc_start_main(main_function *main, int argc, char **argv, void (*init)(void), void (*fini)(void),
                      void (*rtld_fini)(void), void *stack_end) {
    int (*start)(main_function *, int, char **, void (*)(void), void (*)(void), void (*)(void), void *);
    *(void **)&start = dlsym(RTLD_NEXT, "__libc_start_main");
    real_main = main;
    return start(counted_main, argc, argv, init, fini, rtld_fini, stack_end);
}
