// Preloaded into a program, it sets its clock ahead by $AHEAD seconds: that of the day alone, not the one that measures waits.
#define _GNU_SOURCE
#include <stdlib.h>
#include <sys/syscall.h>
#include <time.h>
#include <unistd.h>

int clock_gettime(clockid_t clock, struct timespec *now) {
    int result = syscall(SYS_clock_gettime, clock, now);
    const char *ahead = getenv("AHEAD");
    if (result == 0 && clock == CLOCK_REALTIME && ahead) {
        now->tv_sec += atol(ahead);
    }
    return result;
}
