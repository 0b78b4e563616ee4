/* Loaded before the C library, cuts each sleep of half a second or more to two milliseconds. osm2pgsql tells of its progress
   from a thread that sleeps a second at a time, and waits for that thread before it goes on, so that an append would be
   measured with up to two seconds of sleep. */
#define _GNU_SOURCE
#include <dlfcn.h>
#include <time.h>

static const struct timespec SHORT = { 0, 2000000 };

static const struct timespec *at_most_short(const struct timespec *wanted) {
    return wanted && (wanted->tv_sec > 0 || wanted->tv_nsec >= 500000000) ? &SHORT : wanted;
}

int nanosleep(const struct timespec *wanted, struct timespec *left) {
    int (*real)(const struct timespec *, struct timespec *) = dlsym(RTLD_NEXT, "nanosleep");
    return real(at_most_short(wanted), left);
}

int clock_nanosleep(clockid_t clock, int flags, const struct timespec *wanted, struct timespec *left) {
    int (*real)(clockid_t, int, const struct timespec *, struct timespec *) = dlsym(RTLD_NEXT, "clock_nanosleep");
    return real(clock, flags, flags & TIMER_ABSTIME ? wanted : at_most_short(wanted), left);
}
