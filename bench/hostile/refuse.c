/* Refuses requests for memory and for threads of the program that it is preloaded before, by words of the environment:
   - REFUSE_AT: the request for memory of this number, from 1; REFUSE_FROM: all from this number on;
   - REFUSE_MARKED: requests count only between a write of `+` alone to standard error and one of `-` alone; neither is written;
   - REFUSE_THREAD: the thread of this number, from 1;
   - REFUSE_TOLD: a descriptor, to which a byte is written for each that was refused;
   - REFUSE_COUNTED: a descriptor, to which the number of requests for memory is written in digits at the end. */
#define _GNU_SOURCE
#include <dlfcn.h>
#include <errno.h>
#include <pthread.h>
#include <stdio.h>
#include <stdlib.h>
#include <sys/syscall.h>
#include <unistd.h>

void *__libc_malloc(size_t), *__libc_calloc(size_t, size_t), *__libc_realloc(void *, size_t), *__libc_memalign(size_t, size_t);
ssize_t __write(int, const void *, size_t);

static unsigned long asked, at, from, started, thread;
static int told = -1, marked, counts = 1;

static unsigned long number_in(const char *name) {
    const char *word = getenv(name);
    return word ? strtoul(word, 0, 10) : 0;
}

__attribute__((constructor)) static void begin(void) {
    if (getenv("REFUSE_TOLD")) told = number_in("REFUSE_TOLD");
    at = number_in("REFUSE_AT");
    from = number_in("REFUSE_FROM");
    thread = number_in("REFUSE_THREAD");
    if (getenv("REFUSE_MARKED")) marked = 1, counts = 0;
    asked = 0;
}

void _exit(int status) {
    char digits[24];
    if (getenv("REFUSE_COUNTED") && __write(number_in("REFUSE_COUNTED"), digits, snprintf(digits, sizeof digits, "%lu", asked)) < 0) told = -1;
    for (;;) syscall(SYS_exit_group, status);
}

static void tell(void) {
    if (told >= 0 && __write(told, "r", 1) < 0) told = -1;
}

static int is_refused(void) {
    if (!__atomic_load_n(&counts, __ATOMIC_SEQ_CST)) return 0;
    unsigned long number = __atomic_add_fetch(&asked, 1, __ATOMIC_SEQ_CST);
    if (number != at && (!from || number < from)) return 0;
    tell();
    errno = ENOMEM;
    return 1;
}

ssize_t write(int file, const void *bytes, size_t count) {
    char first = count == 1 ? *(const char *)bytes : 0;
    if (!marked || file != 2 || (first != '+' && first != '-')) return __write(file, bytes, count);
    __atomic_store_n(&counts, first == '+', __ATOMIC_SEQ_CST);
    return 1;
}

int pthread_create(pthread_t *made, const pthread_attr_t *how, void *(*run)(void *), void *given) {
    int (*create)(pthread_t *, const pthread_attr_t *, void *(*)(void *), void *);
    if (__atomic_add_fetch(&started, 1, __ATOMIC_SEQ_CST) == thread) {
        tell();
        return EAGAIN;
    }
    *(void **)&create = dlsym(RTLD_NEXT, "pthread_create");
    return create(made, how, run, given);
}

void *malloc(size_t size) { return is_refused() ? 0 : __libc_malloc(size); }

void *calloc(size_t count, size_t size) { return is_refused() ? 0 : __libc_calloc(count, size); }

void *realloc(void *block, size_t size) { return is_refused() ? 0 : __libc_realloc(block, size); }

void *memalign(size_t to, size_t size) { return is_refused() ? 0 : __libc_memalign(to, size); }

void *aligned_alloc(size_t to, size_t size) { return is_refused() ? 0 : __libc_memalign(to, size); }

int posix_memalign(void **block, size_t to, size_t size) {
    void *found = is_refused() ? 0 : __libc_memalign(to, size);
    if (!found) return ENOMEM;
    *block = found;
    return 0;
}
