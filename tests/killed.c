/* Kills a program before one of its system calls that change files: the one whose number KILL_AT gives, counted from 1. With FAIL_BY that
 * call fails instead, by the error of this number.
 *
 *     cc -shared -fPIC -o killed.so tests/killed.c -ldl
 *     KILL_COUNT=count LD_PRELOAD=./killed.so crates/eoscheck/out/eoscheck draw FOLDER FILE
 *     KILL_AT=7 LD_PRELOAD=./killed.so crates/eoscheck/out/eoscheck draw FOLDER FILE
 *     KILL_AT=7 FAIL_BY=5 LD_PRELOAD=./killed.so crates/eoscheck/out/eoscheck draw FOLDER FILE
 */
#define _GNU_SOURCE
#include <dlfcn.h>
#include <errno.h>
#include <fcntl.h>
#include <signal.h>
#include <stdarg.h>
#include <stdatomic.h>
#include <stdio.h>
#include <stdlib.h>
#include <sys/file.h>
#include <sys/stat.h>
#include <unistd.h>

#define MOST 100000

static atomic_long count;
static const char *names[MOST];
static long at = -1;
static int error;

__attribute__((constructor)) static void start(void) {
    const char *text = getenv("KILL_AT");
    if (text) at = atol(text);
    text = getenv("FAIL_BY");
    if (text) error = atoi(text);
    atomic_store(&count, 0);
}

/* Whether this call is to fail. */
static int next(const char *name) {
    long mine = atomic_fetch_add(&count, 1);
    if (mine < MOST) names[mine] = name;
    if (mine + 1 != at) return 0;
    if (!error) kill(getpid(), SIGKILL);
    errno = error;
    return 1;
}

/* Says which calls there were. */
__attribute__((destructor)) static void end(void) {
    int (*real)(const char *, int, ...) = dlsym(RTLD_NEXT, "open");
    const char *path = getenv("KILL_COUNT");
    int file = path ? real(path, O_WRONLY | O_CREAT | O_TRUNC, 0600) : -1;
    long all = atomic_load(&count);
    for (long i = 0; file >= 0 && i < all && i < MOST; i++) dprintf(file, "%s\n", names[i]);
}

/* A program that may start threads ends by _exit, which runs no destructor. */
void _exit(int status) {
    void (*real)(int) = dlsym(RTLD_NEXT, "_exit");
    end();
    real(status);
    __builtin_unreachable();
}

#define CALLS(result, name, parameters, ...)                              \
    result name parameters {                                              \
        static result (*real) parameters;                                 \
        if (!real) real = dlsym(RTLD_NEXT, #name);                        \
        if (next(#name)) return -1;                                       \
        return real(__VA_ARGS__);                                         \
    }

CALLS(int, fsync, (int file), file)
CALLS(int, flock, (int file, int operation), file, operation)
CALLS(int, link, (const char *from, const char *to), from, to)
CALLS(int, linkat, (int a, const char *from, int b, const char *to, int flags), a, from, b, to, flags)
CALLS(int, unlink, (const char *path), path)
CALLS(int, unlinkat, (int folder, const char *path, int flags), folder, path, flags)
CALLS(int, rename, (const char *from, const char *to), from, to)
CALLS(int, mkdir, (const char *path, mode_t mode), path, mode)
CALLS(int, rmdir, (const char *path), path)

#define OPENS(name, parameters, ...)                                      \
    int name parameters {                                                 \
        static int (*real) parameters;                                    \
        mode_t mode = 0;                                                  \
        if (flags & O_CREAT) {                                            \
            va_list rest;                                                 \
            va_start(rest, flags);                                        \
            mode = va_arg(rest, mode_t);                                  \
            va_end(rest);                                                 \
        }                                                                 \
        if (!real) real = dlsym(RTLD_NEXT, #name);                        \
        if (next(#name)) return -1;                                       \
        return real(__VA_ARGS__, flags, mode);                            \
    }

OPENS(open, (const char *path, int flags, ...), path)
OPENS(open64, (const char *path, int flags, ...), path)
OPENS(openat, (int folder, const char *path, int flags, ...), folder, path)
OPENS(openat64, (int folder, const char *path, int flags, ...), folder, path)

/* A close that fails has closed its file all the same. */
int close(int file) {
    static int (*real)(int);
    if (!real) real = dlsym(RTLD_NEXT, "close");
    int fails = next("close"), why = errno, told = real(file);
    if (!fails) return told;
    errno = why;
    return -1;
}

/* What is printed is told apart. */
ssize_t write(int file, const void *bytes, size_t size) {
    static ssize_t (*real)(int, const void *, size_t);
    if (!real) real = dlsym(RTLD_NEXT, "write");
    return next(file > 2 ? "write" : "print") ? -1 : real(file, bytes, size);
}
