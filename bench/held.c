/*
 * Keeps in the file that HELD names how many requests for memory there were, and the most bytes that were held at once.
 * From the request on whose number REFUSE_FROM names, one of four is refused, now here, now there. To be preloaded, into
 * a program of one thread.
 */
#define _GNU_SOURCE
#include <dlfcn.h>
#include <errno.h>
#include <fcntl.h>
#include <malloc.h>
#include <stddef.h>
#include <stdio.h>
#include <stdlib.h>
#include <unistd.h>

static unsigned long asked, held, most;

/* Takes no memory. A program may end by _exit, which runs nothing of ours: so this is told again and again. */
static void tell(void) {
    static int file = -2;
    char text[48];
    if (file == -2) {
        const char *name = getenv("HELD");
        file = name ? open(name, O_WRONLY | O_CREAT | O_TRUNC, 0644) : -1;
    }
    if (file >= 0 && pwrite(file, text, (size_t)sprintf(text, "%lu %lu\n", asked, most), 0) < 0)
        abort();
}

static int is_refused(void) {
    static unsigned long first;
    if (!first) {
        const char *word = getenv("REFUSE_FROM");
        first = word && *word ? strtoul(word, NULL, 10) : (unsigned long)-1;
    }
    asked++;
    if (asked < first || (asked * 2654435761u >> 16) % 4 != 0) {
        tell();
        return 0;
    }
    tell();
    errno = ENOMEM;
    return 1;
}

static void *took(void *place) {
    held += malloc_usable_size(place);
    if (held > most)
        most = held;
    return place;
}

#define REAL(name, ...)                                      \
    static __typeof__(name) *real;                           \
    if (!real)                                               \
        real = (__typeof__(name) *)dlsym(RTLD_NEXT, #name);

void *malloc(size_t size) {
    REAL(malloc)
    return is_refused() ? NULL : took(real(size));
}

void *realloc(void *old, size_t size) {
    size_t had = malloc_usable_size(old);
    void *place;
    REAL(realloc)
    if (is_refused())
        return NULL;
    place = real(old, size);
    if (place)
        held -= had;
    return took(place);
}

void *aligned_alloc(size_t alignment, size_t size) {
    REAL(aligned_alloc)
    return is_refused() ? NULL : took(real(alignment, size));
}

int posix_memalign(void **place, size_t alignment, size_t size) {
    int fault;
    REAL(posix_memalign)
    if (is_refused())
        return ENOMEM;
    fault = real(place, alignment, size);
    if (!fault)
        took(*place);
    return fault;
}

void free(void *place) {
    REAL(free)
    held -= malloc_usable_size(place);
    real(place);
}
