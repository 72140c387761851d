/* For tests: a library for LD_PRELOAD that makes time pass HURRY times as fast, and name look-ups take LOOKUP milliseconds longer. */
#define _GNU_SOURCE
#include <dlfcn.h>
#include <netdb.h>
#include <stdlib.h>
#include <sys/epoll.h>
#include <time.h>
#include <unistd.h>

static long times(void) {
    const char *text = getenv("HURRY");
    long count = text ? atol(text) : 1;
    return count > 0 ? count : 1;
}

int clock_gettime(clockid_t clock, struct timespec *now) {
    static int (*next)(clockid_t, struct timespec *);
    if (!next)
        next = (int (*)(clockid_t, struct timespec *))dlsym(RTLD_NEXT, "clock_gettime");
    int done = next(clock, now);
    if (done == 0 && clock == CLOCK_MONOTONIC) {
        __int128 nanoseconds = ((__int128)now->tv_sec * 1000000000 + now->tv_nsec) * times();
        now->tv_sec = (time_t)(nanoseconds / 1000000000);
        now->tv_nsec = (long)(nanoseconds % 1000000000);
    }
    return done;
}

int epoll_wait(int poll, struct epoll_event *events, int most, int milliseconds) {
    static int (*next)(int, struct epoll_event *, int, int);
    if (!next)
        next = (int (*)(int, struct epoll_event *, int, int))dlsym(RTLD_NEXT, "epoll_wait");
    return next(poll, events, most, milliseconds > 0 ? (milliseconds + (int)times() - 1) / (int)times() : milliseconds);
}

int getaddrinfo(const char *name, const char *service, const struct addrinfo *hints, struct addrinfo **found) {
    static int (*next)(const char *, const char *, const struct addrinfo *, struct addrinfo **);
    if (!next)
        next = (int (*)(const char *, const char *, const struct addrinfo *, struct addrinfo **))dlsym(RTLD_NEXT, "getaddrinfo");
    const char *text = getenv("LOOKUP");
    if (text)
        usleep(1000 * (useconds_t)atol(text));
    return next(name, service, hints, found);
}
