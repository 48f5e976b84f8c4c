/* Counts what a program holds of the heap at most, in bytes as the C library rounds them up, and
   writes it to standard error at the end. Loaded before the C library (LD_PRELOAD; glibc). One
   thread only. */
#include <malloc.h>
#include <stdio.h>
#include <stdlib.h>

void *__libc_malloc(size_t size);
void *__libc_calloc(size_t count, size_t size);
void *__libc_realloc(void *at, size_t size);
void *__libc_memalign(size_t alignment, size_t size);
void __libc_free(void *at);

static size_t held, peak;

static void *taken(void *at)
{
    held += malloc_usable_size(at);
    if (held > peak)
        peak = held;
    return at;
}

void *malloc(size_t size) { return taken(__libc_malloc(size)); }

void *calloc(size_t count, size_t size) { return taken(__libc_calloc(count, size)); }

void *aligned_alloc(size_t alignment, size_t size)
{
    return taken(__libc_memalign(alignment, size));
}

int posix_memalign(void **at, size_t alignment, size_t size)
{
    *at = taken(__libc_memalign(alignment, size));
    return *at ? 0 : 12;
}

void *realloc(void *at, size_t size)
{
    size_t before = malloc_usable_size(at);
    void *after = __libc_realloc(at, size);
    if (after || !size)
        held -= before;
    return taken(after);
}

void free(void *at)
{
    held -= malloc_usable_size(at);
    __libc_free(at);
}

__attribute__((destructor)) static void tell(void) { fprintf(stderr, "%zu\n", peak); }
