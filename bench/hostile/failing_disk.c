/* Has a call of the program that it is preloaded before fail, and records calls, by words of the environment:
   - FAIL_FDATASYNC, FAIL_FSYNC: the call of this number, from 1, fails with EIO;
   - FAIL_READ: each read of the file of this path fails with EIO;
   - FAIL_OPEN: each opening of this path fails with ENOENT;
   - FAIL_FLOCK: each lock fails with ENOLCK, as on a file system that has none;
   - PIECES: of writes to the file of this path each takes half of what it is handed, and a byte at least;
   - SIGNALS: each other write to the file of this path, from the first on, fails with EINTR;
   - PUT: the file of this path takes the place of the one of the path OVER before the first lock is taken;
   - CALLS_TO: a descriptor, to which a line is written for each call: `write FILE` before it is made; `fdatasync FILE`,
     `fsync FILE`, `rename FILE FILE`, `fchmod FILE` and `flock FILE` after it, with ` failed` where it did. Standard
     output is the file `1`. */
#define _GNU_SOURCE
#include <errno.h>
#include <fcntl.h>
#include <limits.h>
#include <stdarg.h>
#include <stdio.h>
#include <stdlib.h>
#include <string.h>
#include <sys/stat.h>
#include <sys/syscall.h>
#include <unistd.h>

static int number_in(const char *name) {
    const char *word = getenv(name);
    return word ? atoi(word) : -1;
}

static void record(const char *call, const char *file, const char *more, int failed) {
    char line[2 * PATH_MAX + 64];
    int calls = number_in("CALLS_TO"), held = errno;
    const char *between = *more ? " " : "", *end = failed ? " failed\n" : "\n";
    int size = snprintf(line, sizeof line, "%s %s%s%s%s", call, file, between, more, end);
    if (calls < 0 || syscall(SYS_write, calls, line, size) != size) abort();
    errno = held;
}

static void name_file(int file, char path[PATH_MAX + 1]) {
    char link[64];
    int held = errno;
    snprintf(link, sizeof link, "/proc/self/fd/%d", file);
    ssize_t size = readlink(link, path, PATH_MAX);
    path[size < 0 ? 0 : size] = 0;
    errno = held;
}

static void record_file(const char *call, int file, int failed) {
    char path[PATH_MAX + 1] = "1";
    if (file != 1) name_file(file, path);
    record(call, path, "", failed);
}

static int synced(const char *call, const char *word, int *count, long number, int file) {
    int failed = __atomic_add_fetch(count, 1, __ATOMIC_SEQ_CST) == number_in(word);
    if (failed) errno = EIO;
    else failed = syscall(number, file) != 0;
    record_file(call, file, failed);
    return failed ? -1 : 0;
}

int fdatasync(int file) {
    static int count;
    return synced("fdatasync", "FAIL_FDATASYNC", &count, SYS_fdatasync, file);
}

int fsync(int file) {
    static int count;
    return synced("fsync", "FAIL_FSYNC", &count, SYS_fsync, file);
}

int rename(const char *from, const char *to) {
    int failed = syscall(SYS_renameat, AT_FDCWD, from, AT_FDCWD, to) != 0;
    record("rename", from, to, failed);
    return failed ? -1 : 0;
}

static int is_named(const char *word, int file) {
    const char *named = getenv(word);
    char path[PATH_MAX + 1];
    if (!named) return 0;
    name_file(file, path);
    return strcmp(path, named) == 0;
}

ssize_t write(int file, const void *bytes, size_t count) {
    static int signals;
    if (is_named("SIGNALS", file) && __atomic_add_fetch(&signals, 1, __ATOMIC_SEQ_CST) % 2 == 1) {
        errno = EINTR;
        return -1;
    }
    if (file != 2) record_file("write", file, 0);
    if (count > 1 && is_named("PIECES", file)) count /= 2;
    return syscall(SYS_write, file, bytes, count);
}

ssize_t read(int file, void *bytes, size_t count) {
    const char *failing = getenv("FAIL_READ");
    char path[PATH_MAX + 1];
    if (failing) {
        name_file(file, path);
        if (strcmp(path, failing) == 0) {
            errno = EIO;
            return -1;
        }
    }
    return syscall(SYS_read, file, bytes, count);
}

int open(const char *path, int how, ...) {
    va_list more;
    va_start(more, how);
    mode_t mode = how & O_CREAT ? va_arg(more, mode_t) : 0;
    va_end(more);
    const char *failing = getenv("FAIL_OPEN");
    if (failing && strcmp(path, failing) == 0) {
        errno = ENOENT;
        return -1;
    }
    return (int)syscall(SYS_openat, AT_FDCWD, path, how, mode);
}

int fchmod(int file, mode_t mode) {
    int failed = syscall(SYS_fchmod, file, mode) != 0;
    record_file("fchmod", file, failed);
    return failed ? -1 : 0;
}

int flock(int file, int operation) {
    static int count;
    const char *put = getenv("PUT"), *over = getenv("OVER");
    if (__atomic_add_fetch(&count, 1, __ATOMIC_SEQ_CST) == 1 && put && over)
        if (syscall(SYS_renameat, AT_FDCWD, put, AT_FDCWD, over) != 0) abort();
    int failed = getenv("FAIL_FLOCK") != NULL;
    if (failed) errno = ENOLCK;
    else failed = syscall(SYS_flock, file, operation) != 0;
    record_file("flock", file, failed);
    return failed ? -1 : 0;
}
