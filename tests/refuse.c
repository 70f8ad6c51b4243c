/* Refuses one allocation of a program: the one whose number REFUSE_AT gives, counted from 1.
 *
 *     cc -shared -fPIC -o refuse.so tests/refuse.c -ldl
 *     REFUSE_COUNT=count LD_PRELOAD=./refuse.so crates/eoscheck/out/eoscheck dump FILE
 *     REFUSE_AT=7 LD_PRELOAD=./refuse.so crates/eoscheck/out/eoscheck dump FILE
 */
#define _GNU_SOURCE
#include <dlfcn.h>
#include <errno.h>
#include <fcntl.h>
#include <stdatomic.h>
#include <stdio.h>
#include <stdlib.h>
#include <unistd.h>

static atomic_long count;
static long at = -1;

__attribute__((constructor)) static void start(void) {
    const char *text = getenv("REFUSE_AT");
    if (text) at = atol(text);
    atomic_store(&count, 0);
}

/* Without REFUSE_AT: says how many allocations there were. */
__attribute__((destructor)) static void end(void) {
    const char *path = getenv("REFUSE_COUNT");
    int file = path ? open(path, O_WRONLY | O_CREAT | O_TRUNC, 0600) : -1;
    if (file >= 0) {
        dprintf(file, "%ld\n", atomic_load(&count));
        close(file);
    }
}

/* A program that may start threads ends by _exit, which runs no destructor. */
void _exit(int status) {
    void (*real)(int) = dlsym(RTLD_NEXT, "_exit");
    end();
    real(status);
    __builtin_unreachable();
}

static int refused(void) {
    if (atomic_fetch_add(&count, 1) + 1 == at) {
        errno = ENOMEM;
        return 1;
    }
    return 0;
}

void *malloc(size_t size) {
    static void *(*real)(size_t);
    if (!real) real = dlsym(RTLD_NEXT, "malloc");
    return refused() ? NULL : real(size);
}

void *realloc(void *old, size_t size) {
    static void *(*real)(void *, size_t);
    if (!real) real = dlsym(RTLD_NEXT, "realloc");
    return refused() ? NULL : real(old, size);
}

void *aligned_alloc(size_t alignment, size_t size) {
    static void *(*real)(size_t, size_t);
    if (!real) real = dlsym(RTLD_NEXT, "aligned_alloc");
    return refused() ? NULL : real(alignment, size);
}

int posix_memalign(void **out, size_t alignment, size_t size) {
    static int (*real)(void **, size_t, size_t);
    if (!real) real = dlsym(RTLD_NEXT, "posix_memalign");
    return refused() ? ENOMEM : real(out, alignment, size);
}
