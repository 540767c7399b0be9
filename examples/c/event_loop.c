/*
 * An event loop on Linux: it waits in epoll_wait for input, and no longer than until the next timer may be due. Then it
 * reads the clocks, makes a turn, and takes the messages. One timer starts itself again, as an interval would. At the
 * last beat the program writes to itself, and the input that comes so cancels the other timer.
 *
 *     cc event_loop.c -o event_loop $(pkg-config --cflags --libs ertime)
 */
#define _GNU_SOURCE
#include <errno.h>
#include <inttypes.h>
#include <stdio.h>
#include <stdlib.h>
#include <sys/epoll.h>
#include <sys/eventfd.h>
#include <time.h>
#include <unistd.h>

#include "ertime.h"

enum { PROCESS = 0, SCHED = 0, BEAT = 1, LATE = 2, LAST_BEAT = 3 };

static void must(const char *call, int32_t status) {
    if (status != ERT_OK) {
        fprintf(stderr, "%s: %s\n", call, ert_status_text(status));
        exit(EXIT_FAILURE);
    }
}

static void must_succeed(const char *call, int result) {
    if (result < 0) {
        perror(call);
        exit(EXIT_FAILURE);
    }
}

static ert_timer start(ert_world *world, int64_t milliseconds, uint64_t msg) {
    ert_start what = {.when = milliseconds, .msg = msg, .dest = PROCESS};
    ert_timer timer;
    must("ert_world_start", ert_world_start(world, SCHED, &what, &timer));
    return timer;
}

/* The timeout of epoll_wait at a time, in milliseconds: -1, for ever, if no timer is armed. */
static int timeout(ert_world *world, uint64_t now) {
    uint64_t due;
    int32_t status = ert_world_next_due(world, SCHED, &due);
    if (status == ERT_EMPTY) {
        return -1;
    }
    must("ert_world_next_due", status);
    return ert_wait_ms(due, now);
}

/* Lets time go on. */
static void tick(ert_world *world) {
    ert_reading reading = ert_read_clocks();
    ert_moved moved;
    must("ert_world_tick", ert_world_tick(world, &reading, 0, &moved));
}

/* Lets timers expire, and returns the time in milliseconds. */
static uint64_t turn(ert_world *world) {
    ert_turned turned;
    must("ert_world_turn", ert_world_turn(world, SCHED, &turned));
    return turned.to;
}

int main(void) {
    ert_world world = ERT_INIT;
    ert_reading first = ert_read_clocks();
    ert_settings settings;
    ert_settings_init(&settings, &first);
    settings.slots = 64; /* room for 64 timers at once; slots don't wear out */
    must("ert_world_open", ert_world_open(&world, &settings));
    int polled = epoll_create1(EPOLL_CLOEXEC);
    must_succeed("epoll_create1", polled);
    int input = eventfd(0, EFD_CLOEXEC | EFD_NONBLOCK);
    must_succeed("eventfd", input);
    struct epoll_event readable = {.events = EPOLLIN, .data.fd = input};
    must_succeed("epoll_ctl", epoll_ctl(polled, EPOLL_CTL_ADD, input, &readable));

    int beats = 0;
    ert_timer late = start(&world, 60000, LATE);
    start(&world, 20, BEAT);

    uint64_t now = 0;
    for (;;) {
        int wait = timeout(&world, now);
        if (wait < 0) {
            break; /* no timer is left; a server would wait for input alone */
        }
        struct epoll_event events[16];
        int count = epoll_wait(polled, events, sizeof events / sizeof *events, wait);
        if (count < 0 && errno != EINTR) {
            must_succeed("epoll_wait", count);
        }
        /* The input comes between the tick and the turn: then no message is on its way, and each timer that wasn't
           taken can be cancelled. */
        tick(&world);
        for (int i = 0; i < count; i++) {
            eventfd_t value;
            must_succeed("eventfd_read", eventfd_read(events[i].data.fd, &value));
            uint64_t left;
            must("ert_world_cancel", ert_world_cancel(&world, &late, &left));
            printf("the late timer is cancelled\n");
        }
        now = turn(&world);
        ert_mail mail;
        int32_t status;
        while ((status = ert_world_take(&world, PROCESS, &mail)) == ERT_OK) {
            if (mail.tag != ERT_TIMEOUT || mail.msg != BEAT) {
                continue;
            }
            beats += 1;
            printf("beat %d\n", beats);
            if (beats < LAST_BEAT) {
                start(&world, 20, BEAT);
            } else {
                must_succeed("eventfd_write", eventfd_write(input, 1));
            }
        }
        if (status != ERT_EMPTY) {
            must("ert_world_take", status);
        }
    }
    printf("no timer is left\n");
    close(input);
    close(polled);
    must("ert_world_close", ert_world_close(&world));
    return EXIT_SUCCESS;
}
