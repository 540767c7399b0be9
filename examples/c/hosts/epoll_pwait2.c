/*
 * ertime in a loop of epoll_pwait2 (Linux 5.11, glibc 2.35), which waits to the nanosecond.
 *
 *     cc epoll_pwait2.c -o epoll_pwait2 $(pkg-config --cflags --libs ertime)
 */
#define _GNU_SOURCE
#include <sys/epoll.h>

#include "host.h"

int main(void) {
    open_world();
    int polled = epoll_create1(EPOLL_CLOEXEC);
    struct epoll_event readable = {.events = EPOLLIN, .data.fd = input};
    must_succeed("epoll_ctl", polled < 0 || epoll_ctl(polled, EPOLL_CTL_ADD, input, &readable) < 0 ? -errno : 0);
    while (!is_done) {
        uint64_t due = 0;
        bool has_timer = next_due(&due);
        struct timespec wait = ert_wait_timespec(due, 0, now);
        struct epoll_event events[16];
        int count = epoll_pwait2(polled, events, 16, has_timer ? &wait : NULL, NULL);
        if (count < 0 && errno == ENOSYS) {
            return SKIPPED;
        }
        must_succeed("epoll_pwait2", count < 0 && errno != EINTR ? -errno : 0);
        tick();
        for (int i = 0; i < count; i++) {
            take_input();
        }
        turn();
    }
    close(polled);
    return close_world();
}
