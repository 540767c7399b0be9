/*
 * ertime in a loop of libev: a prepare watcher sets one timer of libev, before each wait, to the time of the next timer of
 * ertime; a check watcher ticks after it.
 *
 * Its priority is the greatest, so libev calls it before the callbacks of input. The prepare watcher comes after all of
 * these, so it makes the turn.
 *
 *     cc libev.c -o libev $(pkg-config --cflags --libs ertime) -lev
 */
#define _GNU_SOURCE
#include <ev.h>

#include "host.h"

static ev_timer timer;

static void expire(struct ev_loop *loop, ev_timer *it, int events) {
    (void)loop;
    (void)it;
    (void)events; /* it only ends the wait */
}

static void prepare(struct ev_loop *loop, ev_prepare *it, int events) {
    (void)it;
    (void)events;
    turn();
    uint64_t due;
    ev_timer_stop(loop, &timer);
    if (next_due(&due)) {
        ev_now_update(loop);
        ev_timer_set(&timer, (double)ert_wait_ns(due, 0, now) / 1e9, 0.);
        ev_timer_start(loop, &timer);
    }
}

static void check(struct ev_loop *loop, ev_check *it, int events) {
    (void)loop;
    (void)it;
    (void)events;
    tick();
}

static void read_input(struct ev_loop *loop, ev_io *it, int events) {
    (void)it;
    (void)events;
    take_input();
    ev_break(loop, EVBREAK_ALL);
}

int main(void) {
    struct ev_loop *loop = ev_default_loop(EVFLAG_AUTO);
    ev_prepare before;
    ev_check after;
    ev_io readable;
    open_world();
    ev_timer_init(&timer, expire, 0., 0.);
    ev_prepare_init(&before, prepare);
    ev_check_init(&after, check);
    ev_set_priority(&after, EV_MAXPRI);
    ev_io_init(&readable, read_input, input, EV_READ);
    ev_prepare_start(loop, &before);
    ev_check_start(loop, &after);
    ev_io_start(loop, &readable);
    ev_run(loop, 0);
    ev_loop_destroy(loop);
    return close_world();
}
