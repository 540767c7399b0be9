/*
 * ertime in a loop of io_uring: the wait for completions has the time as its timeout, so no timeout is submitted.
 *
 *     cc io_uring.c -o io_uring $(pkg-config --cflags --libs ertime liburing)
 */
#define _GNU_SOURCE
#include <liburing.h>
#include <poll.h>

#include "host.h"

static void watch_input(struct io_uring *ring) {
    struct io_uring_sqe *asked = io_uring_get_sqe(ring);
    io_uring_prep_poll_add(asked, input, POLLIN);
    must_succeed("io_uring_submit", io_uring_submit(ring));
}

int main(void) {
    struct io_uring ring;
    int status = io_uring_queue_init(16, &ring, 0);
    if (status == -ENOSYS || status == -EPERM) {
        return SKIPPED; /* the system has none, or doesn't allow it */
    }
    must_succeed("io_uring_queue_init", status);
    open_world();
    watch_input(&ring);
    while (!is_done) {
        uint64_t due = 0;
        bool has_timer = next_due(&due);
        int64_t wait = ert_wait_ns(due, 0, now);
        struct __kernel_timespec timeout = {wait / 1000000000, wait % 1000000000};
        struct io_uring_cqe *done;
        status = io_uring_wait_cqe_timeout(&ring, &done, has_timer ? &timeout : NULL);
        must_succeed("io_uring_wait_cqe_timeout", status == -ETIME || status == -EINTR ? 0 : status);
        tick();
        if (status == 0) {
            take_input();
            io_uring_cqe_seen(&ring, done);
        }
        turn();
    }
    io_uring_queue_exit(&ring);
    return close_world();
}
