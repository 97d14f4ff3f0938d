/*
 * Another clock for a program: what the file that CLOCK names says, as `+ SECONDS` (the machine's clock and so much) or
 * `= SECONDS` (a clock that stands still there). Clocks that only measure what passes stay. To be preloaded.
 */
#define _GNU_SOURCE
#include <fcntl.h>
#include <stdlib.h>
#include <sys/syscall.h>
#include <time.h>
#include <unistd.h>

int clock_gettime(clockid_t clock, struct timespec *now) {
    char text[64];
    int file, answer;
    ssize_t length;
    const char *name = getenv("CLOCK");
    answer = (int)syscall(SYS_clock_gettime, clock, now);
    if (clock != CLOCK_REALTIME || answer != 0 || !name || (file = open(name, O_RDONLY)) < 0)
        return answer;
    length = read(file, text, sizeof text - 1);
    close(file);
    if (length < 2)
        return answer;
    text[length] = 0;
    if (text[0] == '=') {
        now->tv_sec = atoll(text + 1);
        now->tv_nsec = 0;
    } else {
        now->tv_sec += atoll(text + 1);
    }
    return 0;
}
