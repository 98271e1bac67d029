// Makes the clock CLOCK_REALTIME always show the time in the variable CLOCK_SECOND, in seconds
// since 1970. If the variable isn't a number, calls that read this clock fail. Other clocks, such
// as the monotonic clock, stay unchanged. LD_PRELOAD must load this library before the C library.
#define _GNU_SOURCE
#include <dlfcn.h>
#include <errno.h>
#include <stdlib.h>
#include <time.h>

int clock_gettime(clockid_t clock, struct timespec *told) {
    static int (*next)(clockid_t, struct timespec *);
    if (!next) next = dlsym(RTLD_NEXT, "clock_gettime");
    const char *text = getenv("CLOCK_SECOND");
    if (clock != CLOCK_REALTIME || !text) return next(clock, told);
    char *end;
    told->tv_sec = strtoll(text, &end, 10);
    told->tv_nsec = 0;
    if (end != text && *end == 0) return 0;
    errno = EINVAL;
    return -1;
}
