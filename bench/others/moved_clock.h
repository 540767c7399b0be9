/*
 * A clock that the program moves, for a library which reads the machine's by itself. The linker gives the calls of the
 * library to these functions:
 *
 *     -Wl,--wrap=clock_gettime,--wrap=gettimeofday,--wrap=epoll_wait
 *
 * So a pass of its loop asks the operating system for nothing, and costs what the library itself does.
 */
#ifndef MOVED_CLOCK_H
#define MOVED_CLOCK_H

#include <stdint.h>
#include <sys/epoll.h>
#include <sys/time.h>
#include <time.h>

#define MICROSECOND INT64_C(1000)
#define MILLISECOND INT64_C(1000000)
#define SECOND INT64_C(1000000000)

int __real_clock_gettime(clockid_t clock, struct timespec *time);
int __wrap_clock_gettime(clockid_t clock, struct timespec *time);
int __wrap_gettimeofday(struct timeval *time, void *zone);
int __wrap_epoll_wait(int epoll, struct epoll_event *events, int count, int timeout);
#define MACHINE_CLOCK __real_clock_gettime

/* The time of all clocks, in nanoseconds. */
static int64_t clock_now = 1000 * SECOND;

int __wrap_clock_gettime(clockid_t clock, struct timespec *time)
{
    (void)clock;
    time->tv_sec = clock_now / SECOND;
    time->tv_nsec = clock_now % SECOND;
    return 0;
}

int __wrap_gettimeofday(struct timeval *time, void *zone)
{
    (void)zone;
    time->tv_sec = clock_now / SECOND;
    time->tv_usec = clock_now % SECOND / MICROSECOND;
    return 0;
}

/* Nothing happened, and no time went by. */
int __wrap_epoll_wait(int epoll, struct epoll_event *events, int count, int timeout)
{
    (void)epoll;
    (void)events;
    (void)count;
    (void)timeout;
    return 0;
}

#endif
