/*
 * Refuses one request for memory: the one whose number REFUSE names, counted from 1; each that is made while there is a file of
 * the name REFUSE_WHILE; and the one whose number, counted from now, stands in the file that REFUSE_NEXT names, as a long that
 * another program may write: each request takes 1 from it, until it is 0. The number of requests up to now is kept in the file
 * that COUNT names: a program may end by _exit, which runs nothing of ours. To be preloaded.
 */
#define _GNU_SOURCE
#include <dlfcn.h>
#include <errno.h>
#include <fcntl.h>
#include <stddef.h>
#include <stdio.h>
#include <stdlib.h>
#include <sys/mman.h>
#include <unistd.h>

static long asked;

/* Takes no memory. */
static void tell(void) {
    static int file = -1;
    static int begun = 0;
    char text[24];
    if (!begun) {
        const char *name = getenv("COUNT");
        begun = 1;
        if (name)
            file = open(name, O_WRONLY | O_CREAT | O_TRUNC, 0644);
    }
    if (file >= 0 && pwrite(file, text, (size_t)sprintf(text, "%ld\n", __atomic_load_n(&asked, __ATOMIC_SEQ_CST)), 0) < 0)
        abort();
}

/* The number in the file that REFUSE_NEXT names. Takes no memory. */
static long *map_next(void) {
    const char *name = getenv("REFUSE_NEXT");
    int file = name ? open(name, O_RDWR) : -1;
    void *place = file < 0 ? MAP_FAILED : mmap(NULL, sizeof(long), PROT_READ | PROT_WRITE, MAP_SHARED, file, 0);
    if (name && place == MAP_FAILED)
        abort();
    return name ? place : NULL;
}

static int is_next(void) {
    static long *next;
    static int begun = 0;
    long left;
    if (!begun) {
        begun = 1;
        next = map_next();
    }
    left = next ? __atomic_load_n(next, __ATOMIC_SEQ_CST) : 0;
    while (left > 0 && !__atomic_compare_exchange_n(next, &left, left - 1, 0, __ATOMIC_SEQ_CST, __ATOMIC_SEQ_CST))
        ;
    return left == 1;
}

static int is_refused(void) {
    static long wanted = -1;
    static const char *sign;
    long number;
    if (wanted < 0) {
        const char *word = getenv("REFUSE");
        wanted = word ? atol(word) : 0;
        sign = getenv("REFUSE_WHILE");
    }
    /* Threads ask at the same time: each request has a number of its own, so that one at most is refused by it. */
    number = __atomic_add_fetch(&asked, 1, __ATOMIC_SEQ_CST);
    tell();
    if (number != wanted && !is_next() && !(sign && access(sign, F_OK) == 0))
        return 0;
    errno = ENOMEM;
    return 1;
}

void *malloc(size_t size) {
    static void *(*real)(size_t);
    if (!real)
        real = (void *(*)(size_t))dlsym(RTLD_NEXT, "malloc");
    return is_refused() ? NULL : real(size);
}

void *realloc(void *old, size_t size) {
    static void *(*real)(void *, size_t);
    if (!real)
        real = (void *(*)(void *, size_t))dlsym(RTLD_NEXT, "realloc");
    return is_refused() ? NULL : real(old, size);
}

void *aligned_alloc(size_t alignment, size_t size) {
    static void *(*real)(size_t, size_t);
    if (!real)
        real = (void *(*)(size_t, size_t))dlsym(RTLD_NEXT, "aligned_alloc");
    return is_refused() ? NULL : real(alignment, size);
}

int posix_memalign(void **place, size_t alignment, size_t size) {
    static int (*real)(void **, size_t, size_t);
    if (!real)
        real = (int (*)(void **, size_t, size_t))dlsym(RTLD_NEXT, "posix_memalign");
    return is_refused() ? ENOMEM : real(place, alignment, size);
}
