/*
 * Kills the program, or lets a call fail, while it writes a snapshot. Counted are the calls that write the file which NEW names
 * and give it its place: `open`, each `write`, `fsync`, `rename`, and the `open` and `fsync` of its folder behind it. The names of
 * those that were made stand in the file that MADE names, one a line.
 *
 * KILL_AT is the number of the call, counted from 1, before which the program is killed; with HALF a `write` is done by half
 * first. FAIL_AT is the number of the call that fails, as on a disk that is full. To be preloaded.
 */
#define _GNU_SOURCE
#include <dlfcn.h>
#include <errno.h>
#include <fcntl.h>
#include <signal.h>
#include <stdarg.h>
#include <stdlib.h>
#include <string.h>
#include <sys/stat.h>
#include <sys/types.h>
#include <unistd.h>

static long made;
static int file = -1;    /* the descriptor of the new file, or of its folder */
static int is_renamed;

static long number_of(const char *name) {
    const char *word = getenv(name);
    return word ? atol(word) : 0;
}

static ssize_t write_on(int at, const void *bytes, size_t count) {
    static ssize_t (*real)(int, const void *, size_t);
    if (!real)
        real = (ssize_t (*)(int, const void *, size_t))dlsym(RTLD_NEXT, "write");
    return real(at, bytes, count);
}

static int open_at(const char *path, int flags, mode_t mode) {
    static int (*real)(const char *, int, ...);
    if (!real)
        real = (int (*)(const char *, int, ...))dlsym(RTLD_NEXT, "open");
    return real(path, flags, mode);
}

static void note(const char *name) {
    static int list = -2;
    if (list == -2) {
        const char *path = getenv("MADE");
        list = path ? open_at(path, O_WRONLY | O_CREAT | O_APPEND | O_CLOEXEC, 0644) : -1;
    }
    if (list >= 0 && (write_on(list, name, strlen(name)) < 0 || write_on(list, "\n", 1) < 0))
        abort();
}

static void end(void) {
    kill(getpid(), SIGKILL);
    for (;;)
        pause();
}

/* Whether the call of this name is to fail. */
static int is_next(const char *name) {
    made++;
    if (made == number_of("KILL_AT") && !(strcmp(name, "write") == 0 && getenv("HALF")))
        end();
    note(name);
    if (made != number_of("FAIL_AT"))
        return 0;
    errno = ENOSPC;
    return 1;
}

static int is_new(const char *path) {
    const char *wanted = getenv("NEW");
    return wanted && strcmp(path, wanted) == 0;
}

/* Whether this names the folder of the new file. */
static int is_folder(const char *path) {
    char folder[4096];
    struct stat wanted, found;
    const char *name = getenv("NEW");
    size_t length = name && strrchr(name, '/') ? (size_t)(strrchr(name, '/') - name) + 1 : 0;
    if (length == 0 || length >= sizeof folder)
        return 0;
    memcpy(folder, name, length);
    folder[length] = 0;
    return stat(folder, &wanted) == 0 && stat(path, &found) == 0 && wanted.st_dev == found.st_dev && wanted.st_ino == found.st_ino;
}

int open(const char *path, int flags, ...) {
    va_list more;
    mode_t mode;
    int result;
    va_start(more, flags);
    mode = flags & O_CREAT ? va_arg(more, mode_t) : 0;
    va_end(more);
    if (!is_new(path) && !(is_renamed && is_folder(path)))
        return open_at(path, flags, mode);
    if (is_next("open"))
        return -1;
    result = open_at(path, flags, mode);
    file = result;
    if (is_new(path))
        is_renamed = 0;
    return result;
}

ssize_t write(int at, const void *bytes, size_t count) {
    if (at != file)
        return write_on(at, bytes, count);
    if (is_next("write"))
        return -1;
    if (made == number_of("KILL_AT")) {
        write_on(at, bytes, count / 2);
        end();
    }
    return write_on(at, bytes, count);
}

int fsync(int at) {
    static int (*real)(int);
    if (!real)
        real = (int (*)(int))dlsym(RTLD_NEXT, "fsync");
    if (at != file)
        return real(at);
    return is_next("fsync") ? -1 : real(at);
}

int close(int at) {
    static int (*real)(int);
    if (!real)
        real = (int (*)(int))dlsym(RTLD_NEXT, "close");
    if (at == file)
        file = -1;
    return real(at);
}

int rename(const char *from, const char *to) {
    static int (*real)(const char *, const char *);
    int result;
    if (!real)
        real = (int (*)(const char *, const char *))dlsym(RTLD_NEXT, "rename");
    if (!is_new(from))
        return real(from, to);
    if (is_next("rename"))
        return -1;
    result = real(from, to);
    is_renamed = result == 0;
    return result;
}
