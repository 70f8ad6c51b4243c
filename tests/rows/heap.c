/* The heap of the unproved program (tests/unproved.py), in the place of the C library's: it refuses one allocation, counts them,
 * bounds what is held, and counts the threads that are started. What is asked for in the end, by names with three underscores,
 * is the address sanitizer's, which the kit's try links. Counted and refused are the program's own allocations: the
 * sanitizer has the C library make some in each thread, and can't do without.
 */
#include <errno.h>
#include <limits.h>
#include <pthread.h>
#include <stdatomic.h>
#include <stddef.h>
#include <stdint.h>

void *___interceptor_malloc(size_t size);
void *___interceptor_realloc(void *old, size_t size);
void ___interceptor_free(void *old);
size_t ___interceptor_malloc_usable_size(void *block);
int ___interceptor_pthread_create(pthread_t *thread, const pthread_attr_t *attr, void *(*start)(void *), void *arg);

/* The kit's, by which all of the program's allocations are made. */
extern const char rattle_alloc[], rattle_realloc[];
/* More than each of these two is long. */
#define LENGTH 48

static atomic_ulong count, at, threads;
/* How many bytes are held since there is a bound, and which; 0 where there is none. */
static atomic_long held, bound;

void heap_refuse(uint64_t number) {
    atomic_store(&count, 0);
    atomic_store(&threads, 0);
    atomic_store(&at, number);
}

uint64_t heap_allocations(void) { return atomic_load(&count); }

uint64_t heap_threads(void) { return atomic_load(&threads); }

void heap_bound(uint64_t bytes) {
    atomic_store(&held, 0);
    atomic_store(&bound, bytes < LONG_MAX ? (long)bytes : 0);
}

/* What a block counts for. Without a bound none is asked for its size: the first are freed before the sanitizer knows any. */
static long size_of(void *block) { return block && atomic_load(&bound) ? (long)___interceptor_malloc_usable_size(block) : 0; }

/* Whether an allocation is the program's own, by where it was asked for. */
static int is_own(const char *from) { return (size_t)(from - rattle_alloc) < LENGTH || (size_t)(from - rattle_realloc) < LENGTH; }

static int refused(size_t size, const char *from) {
    if (!is_own(from)) return 0;
    long most = atomic_load(&bound);
    unsigned long number = atomic_fetch_add(&count, 1) + 1;
    if (number == atomic_load(&at) || (most && (size > (size_t)most || atomic_load(&held) + (long)size > most))) {
        errno = ENOMEM;
        return 1;
    }
    return 0;
}

void *malloc(size_t size) {
    void *made = refused(size, __builtin_return_address(0)) ? NULL : ___interceptor_malloc(size);
    atomic_fetch_add(&held, size_of(made));
    return made;
}

void *realloc(void *old, size_t size) {
    long before = size_of(old);
    void *made = refused(size, __builtin_return_address(0)) ? NULL : ___interceptor_realloc(old, size);
    if (made) atomic_fetch_add(&held, size_of(made) - before);
    return made;
}

void free(void *old) {
    atomic_fetch_sub(&held, size_of(old));
    ___interceptor_free(old);
}

int pthread_create(pthread_t *thread, const pthread_attr_t *attr, void *(*start)(void *), void *arg) {
    atomic_fetch_add(&threads, 1);
    return ___interceptor_pthread_create(thread, attr, start, arg);
}
