/* Preloaded before the C library: refuses one allocation of a program.
 *
 *   REFUSE=N     the N-th allocation, counted from 1, is refused; without it, or with 0, none is
 *   COUNT=1      the number of allocations is written to standard error when the program ends
 *
 * Built and run by `bench/limits.py refuse` and `refuse-tests`.
 */
#define _GNU_SOURCE
#include <dlfcn.h>
#include <errno.h>
#include <stdio.h>
#include <stdlib.h>
#include <unistd.h>

static long refused = -1;
static long count = 0;

/* Counts one allocation; tells whether it is the one to refuse. */
static int is_refused(void) {
    if (refused < 0) {
        const char *wanted = getenv("REFUSE");
        refused = wanted ? atol(wanted) : 0;
    }
    count++;
    return refused > 0 && count == refused;
}

void *malloc(size_t size) {
    static void *(*real)(size_t);
    if (!real) real = dlsym(RTLD_NEXT, "malloc");
    return is_refused() ? NULL : real(size);
}

void *realloc(void *old, size_t size) {
    static void *(*real)(void *, size_t);
    if (!real) real = dlsym(RTLD_NEXT, "realloc");
    return is_refused() ? NULL : real(old, size);
}

void *aligned_alloc(size_t align, size_t size) {
    static void *(*real)(size_t, size_t);
    if (!real) real = dlsym(RTLD_NEXT, "aligned_alloc");
    return is_refused() ? NULL : real(align, size);
}

int posix_memalign(void **out, size_t align, size_t size) {
    static int (*real)(void **, size_t, size_t);
    if (!real) real = dlsym(RTLD_NEXT, "posix_memalign");
    return is_refused() ? ENOMEM : real(out, align, size);
}

__attribute__((destructor)) static void report(void) {
    if (getenv("COUNT")) {
        char line[64];
        int length = snprintf(line, sizeof line, "%ld\n", count);
        if (write(STDERR_FILENO, line, (size_t)length) != length) _exit(70);
    }
}
