/*
 * ertime in a loop of libuv: a prepare handle sets one timer of libuv, before each wait, to the time of the next timer of
 * ertime; a check handle makes the turn after it.
 *
 * libuv calls the callbacks of input between both, so each begins with a tick, as that of the check handle does.
 *
 *     cc libuv.c -o libuv $(pkg-config --cflags --libs ertime libuv)
 */
#define _GNU_SOURCE
#include <uv.h>

#include "host.h"

static uv_timer_t timer;

static void expire(uv_timer_t *it) {
    (void)it; /* it only ends the wait */
}

static void prepare(uv_prepare_t *it) {
    uint64_t due;
    uv_update_time(it->loop);
    if (next_due(&due)) {
        must_succeed("uv_timer_start", uv_timer_start(&timer, expire, (uint64_t)ert_wait_ms(due, to), 0));
    } else {
        uv_timer_stop(&timer);
    }
}

static void check(uv_check_t *it) {
    tick();
    turn();
    if (is_done) {
        uv_stop(it->loop);
    }
}

static void read_input(uv_poll_t *it, int status, int events) {
    (void)it;
    (void)events;
    must_succeed("uv_poll", status);
    tick();
    take_input();
}

int main(void) {
    uv_loop_t *loop = uv_default_loop();
    uv_prepare_t before;
    uv_check_t after;
    uv_poll_t readable;
    open_world();
    must_succeed("uv_timer_init", uv_timer_init(loop, &timer));
    must_succeed("uv_prepare_init", uv_prepare_init(loop, &before));
    must_succeed("uv_check_init", uv_check_init(loop, &after));
    must_succeed("uv_poll_init", uv_poll_init(loop, &readable, input));
    must_succeed("uv_prepare_start", uv_prepare_start(&before, prepare));
    must_succeed("uv_check_start", uv_check_start(&after, check));
    must_succeed("uv_poll_start", uv_poll_start(&readable, UV_READABLE, read_input));
    uv_run(loop, UV_RUN_DEFAULT);
    uv_close((uv_handle_t *)&timer, NULL);
    uv_close((uv_handle_t *)&before, NULL);
    uv_close((uv_handle_t *)&after, NULL);
    uv_close((uv_handle_t *)&readable, NULL);
    uv_run(loop, UV_RUN_DEFAULT);
    must_succeed("uv_loop_close", uv_loop_close(loop));
    return close_world();
}
