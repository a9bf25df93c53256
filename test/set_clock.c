// Sets the wall clock of the process that this is preloaded into: at each reading it stands a day ahead or a day behind, in turns.
#define _GNU_SOURCE
#include <dlfcn.h>
#include <stdatomic.h>
#include <sys/time.h>
#include <time.h>

static time_t seconds_off(void) {
    static atomic_uint readings;
    return atomic_fetch_add(&readings, 1) % 2 ? 86400 : -86400;
}

int clock_gettime(clockid_t clock, struct timespec *now) {
    int (*next)(clockid_t, struct timespec *) = dlsym(RTLD_NEXT, "clock_gettime");
    int status = next(clock, now);
    if (status == 0 && (clock == CLOCK_REALTIME || clock == CLOCK_REALTIME_COARSE))
        now->tv_sec += seconds_off();
    return status;
}

int gettimeofday(struct timeval *now, void *zone) {
    int (*next)(struct timeval *, void *) = dlsym(RTLD_NEXT, "gettimeofday");
    int status = next(now, zone);
    if (status == 0)
        now->tv_sec += seconds_off();
    return status;
}

time_t time(time_t *now) {
    struct timeval it;
    gettimeofday(&it, NULL);
    if (now)
        *now = it.tv_sec;
    return it.tv_sec;
}
