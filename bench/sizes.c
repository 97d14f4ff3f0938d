/*
 * Counts what a program holds by the size of its pieces. On SIGUSR2 it writes, into the file that SIZES names, a line for each
 * size of which there are many: the bytes of a piece, with what malloc adds, and how many are held; and last the bytes of all
 * pieces of 64 KiB and more, and how many these are. To be preloaded.
 */
#define _GNU_SOURCE
#include <errno.h>
#include <fcntl.h>
#include <malloc.h>
#include <signal.h>
#include <stdatomic.h>
#include <stddef.h>
#include <stdio.h>
#include <stdlib.h>
#include <unistd.h>

enum { STEP = 16, SMALL = 4096, MANY = 50 };

extern void *__libc_malloc(size_t);
extern void *__libc_calloc(size_t, size_t);
extern void *__libc_realloc(void *, size_t);
extern void *__libc_memalign(size_t, size_t);
extern void __libc_free(void *);

static atomic_long pieces[SMALL], large, large_bytes;

/* One piece more, or one less. */
static void *count(void *place, long change) {
    size_t size = place ? malloc_usable_size(place) + sizeof(size_t) : 0;
    if (size / STEP < SMALL) {
        atomic_fetch_add(&pieces[size / STEP], change);
    } else {
        atomic_fetch_add(&large, change);
        atomic_fetch_add(&large_bytes, change * (long)size);
    }
    return place;
}

void *malloc(size_t size) { return count(__libc_malloc(size), 1); }

void *calloc(size_t many, size_t size) { return count(__libc_calloc(many, size), 1); }

void *realloc(void *old, size_t size) {
    void *place;
    count(old, -1);
    place = __libc_realloc(old, size);
    if (!place && size)
        count(old, 1);
    return count(place, 1);
}

void *memalign(size_t alignment, size_t size) { return count(__libc_memalign(alignment, size), 1); }

void *aligned_alloc(size_t alignment, size_t size) { return memalign(alignment, size); }

int posix_memalign(void **place, size_t alignment, size_t size) {
    *place = memalign(alignment, size);
    return *place ? 0 : ENOMEM;
}

void free(void *place) {
    count(place, -1);
    __libc_free(place);
}

static void tell(int file, long first, long second) {
    char text[64];
    if (write(file, text, (size_t)sprintf(text, "%ld %ld\n", first, second)) < 0)
        abort();
}

static void tell_all(int signal_number) {
    int file = open(getenv("SIZES"), O_WRONLY | O_CREAT | O_TRUNC, 0644);
    (void)signal_number;
    for (long k = 1; k < SMALL; k++)
        if (pieces[k] > MANY)
            tell(file, k * STEP, pieces[k]);
    tell(file, large_bytes, large);
    close(file);
}

__attribute__((constructor)) static void begin(void) {
    if (getenv("SIZES"))
        signal(SIGUSR2, tell_all);
}
