/* Makes the standard streams of a program falter, and the files that it reads.
 *
 *     cc -shared -fPIC -o streams.so tests/streams.c -ldl
 *     STREAM_ROOM=3 LD_PRELOAD=./streams.so crates/eoscheck/out/eoscheck dump - < FILE
 *
 * STREAM_ROOM=N            standard output takes N bytes, and then it is full
 * STREAM_STEP=N            a read of standard input and a write to standard output take at most N bytes
 * STREAM_READS=N           N reads of standard input are interrupted before each one that isn't
 * STREAM_WRITES=N          N writes to standard output are interrupted before each one that isn't
 * STREAM_BROKEN=1          standard input can't be read
 * STREAM_BREAKS=N          standard input can't be read behind its first N bytes
 * FILE_STEP=N              a read of another file takes at most N bytes
 * FILE_BREAKS=N            another file can't be read behind its first N bytes, if it has more
 * FILE_AGAIN=FILE          a segment's log is FILE where it is opened a second time; of one thread
 */
#define _GNU_SOURCE
#include <dlfcn.h>
#include <errno.h>
#include <fcntl.h>
#include <stdarg.h>
#include <stdlib.h>
#include <string.h>
#include <sys/stat.h>
#include <unistd.h>

static long number(const char *name, long other) {
    const char *text = getenv(name);
    return text ? atol(text) : other;
}

/* Whether this call is interrupted, of which so many were in a row. */
static int interrupted(const char *name, long *row) {
    if (*row < number(name, 0)) {
        *row += 1;
        errno = EINTR;
        return 1;
    }
    *row = 0;
    return 0;
}

static size_t least(size_t a, long b) {
    return b < 0 || a < (size_t)b ? a : (size_t)b;
}

/* How many bytes a read of a file may take, or -1 where it can't be read any more. */
static ssize_t readable(int file, size_t size) {
    long breaks = number("FILE_BREAKS", -1);
    struct stat is;
    size = least(size, number("FILE_STEP", -1));
    if (breaks < 0 || fstat(file, &is) || !S_ISREG(is.st_mode) || is.st_size <= breaks) return size;
    off_t place = lseek(file, 0, SEEK_CUR);
    return place >= breaks ? -1 : (ssize_t)least(size, breaks - place);
}

ssize_t read(int file, void *bytes, size_t size) {
    static ssize_t (*real)(int, void *, size_t);
    static long row, given;
    long breaks = number("STREAM_BREAKS", -1);
    if (!real) real = dlsym(RTLD_NEXT, "read");
    if (file != STDIN_FILENO) {
        ssize_t most = readable(file, size);
        if (most >= 0) return real(file, bytes, most);
        errno = EIO;
        return -1;
    }
    if (number("STREAM_BROKEN", 0) || (breaks >= 0 && given >= breaks)) {
        errno = EIO;
        return -1;
    }
    if (interrupted("STREAM_READS", &row)) return -1;
    size = least(size, number("STREAM_STEP", -1));
    ssize_t count = real(file, bytes, breaks < 0 ? size : least(size, breaks - given));
    if (count > 0) given += count;
    return count;
}

/* What is opened by this path. */
static const char *opened(const char *path) {
    static char *before[64];
    static size_t count;
    const char *again = getenv("FILE_AGAIN");
    size_t size = strlen(path);
    if (!again || size < 4 || strcmp(path + size - 4, ".log")) return path;
    for (size_t i = 0; i < count; i++)
        if (!strcmp(before[i], path)) return again;
    if (count < 64) before[count++] = strdup(path);
    return path;
}

int open(const char *path, int flags, ...) {
    static int (*real)(const char *, int, ...);
    va_list more;
    va_start(more, flags);
    mode_t mode = flags & (O_CREAT | O_TMPFILE) ? va_arg(more, mode_t) : 0;
    va_end(more);
    if (!real) real = dlsym(RTLD_NEXT, "open");
    return real(opened(path), flags, mode);
}

ssize_t write(int file, const void *bytes, size_t size) {
    static ssize_t (*real)(int, const void *, size_t);
    static long row, taken;
    long room = number("STREAM_ROOM", -1);
    if (!real) real = dlsym(RTLD_NEXT, "write");
    if (file != STDOUT_FILENO) return real(file, bytes, size);
    if (interrupted("STREAM_WRITES", &row)) return -1;
    if (room >= 0 && size > 0 && taken >= room) {
        errno = ENOSPC;
        return -1;
    }
    size = least(size, number("STREAM_STEP", -1));
    ssize_t count = real(file, bytes, room < 0 ? size : least(size, room - taken));
    if (count > 0) taken += count;
    return count;
}
