/* Counts the threads that a program starts, and how many of them are there at once, and writes both to the file that
 * THREAD_COUNT names.
 *
 *     cc -shared -fPIC -o threads.so tests/threads.c -ldl
 *     THREAD_COUNT=count LD_PRELOAD=./threads.so crates/eoscheck/out/eoscheck check FOLDER
 */
#define _GNU_SOURCE
#include <dlfcn.h>
#include <errno.h>
#include <fcntl.h>
#include <pthread.h>
#include <stdatomic.h>
#include <stdio.h>
#include <stdlib.h>
#include <unistd.h>

/* What a thread is to do. */
struct task {
    void *(*start)(void *);
    void *arg;
};

static atomic_long count, there, most;

__attribute__((destructor)) static void end(void) {
    const char *path = getenv("THREAD_COUNT");
    int file = path ? open(path, O_WRONLY | O_CREAT | O_TRUNC, 0600) : -1;
    if (file >= 0) {
        dprintf(file, "%ld %ld\n", atomic_load(&count), atomic_load(&most));
        close(file);
    }
}

/* A program that may start threads ends by _exit, which runs no destructor. */
void _exit(int status) {
    void (*real)(int) = dlsym(RTLD_NEXT, "_exit");
    end();
    real(status);
    __builtin_unreachable();
}

static void *run(void *arg) {
    struct task task = *(struct task *)arg;
    free(arg);
    void *result = task.start(task.arg);
    atomic_fetch_sub(&there, 1);
    return result;
}

int pthread_create(pthread_t *thread, const pthread_attr_t *attr, void *(*start)(void *), void *arg) {
    int (*real)(pthread_t *, const pthread_attr_t *, void *(*)(void *), void *) = dlsym(RTLD_NEXT, "pthread_create");
    struct task *task = malloc(sizeof *task);
    if (!task) return EAGAIN;
    *task = (struct task){start, arg};
    atomic_fetch_add(&count, 1);
    long now = atomic_fetch_add(&there, 1) + 1, before = atomic_load(&most);
    while (before < now && !atomic_compare_exchange_weak(&most, &before, now)) {
    }
    int failed = real(thread, attr, run, task);
    if (failed) {
        atomic_fetch_sub(&there, 1);
        free(task);
    }
    return failed;
}
