/*
 * Timers of libuv, by the operations of `bench/compare.c`.
 *
 * A timer is a `uv_timer_t` that the program keeps; a start is `uv_timer_start`, and a cancel `uv_timer_stop`.
 * Both go by the time that the loop keeps, so neither asks the operating system, as in ertime. They make no
 * atomic step and know no owner. The clock is one that the program moves.
 *
 *     start_cancel     one handle is started and stopped again
 *     start            in a new loop, each on a handle of its own, with `uv_timer_init` in the time; the handles'
 *                      memory was touched before
 *     cancel           in the order that all programs have
 *     restart          `uv_timer_start` of a timer that is active, which stops it first, with `uv_update_time` where
 *                      a millisecond has passed
 *     packet           the same for the idle timeout, and `uv_timer_stop` and `uv_timer_start` for the request's; a pass
 *                      of the loop where a millisecond has passed
 *     idle_pass        `uv_run` without a wait: it reads the clock and asks for events, which cost nothing here, and finds
 *                      no timer due
 *     expire_at_once   one `uv_run` without a wait takes all from the heap and calls them back: a callback that counts
 *                      is what stands for delivery, and nothing is queued or taken
 *     expire_spread    the same in each of 60,000 milliseconds
 */
#define _POSIX_C_SOURCE 200809L

#include "moved_clock.h"

#include "measure.h"
#include <uv.h>

static uv_loop_t loop;
static uv_timer_t *handles;
static size_t expired;

static void count_one(uv_timer_t *handle)
{
    (void)handle;
    expired++;
}

/* Opens the loop, with memory for so many handles, which later passes use again. */
static void open_loop(size_t count)
{
    expect(uv_loop_init(&loop) == 0);
    if (handles == NULL) {
        handles = allocate(count + 1, sizeof *handles);
        memset(handles, 0, (count + 1) * sizeof *handles);
    }
    expired = 0;
}

/* The nanoseconds since then; so many handles are closed, and the loop. */
static uint64_t close_since(uint64_t begun, size_t count)
{
    uint64_t taken = nanoseconds() - begun;
    for (size_t i = 0; i < count; i++)
        uv_close((uv_handle_t *)&handles[i], NULL);
    uv_run(&loop, UV_RUN_DEFAULT);
    expect(uv_loop_close(&loop) == 0);
    return taken;
}

static void start(uv_timer_t *handle, uint32_t wait)
{
    expect(uv_timer_start(handle, count_one, wait, 0) == 0);
}

static void start_new(uv_timer_t *handle, uint32_t wait)
{
    uv_timer_init(&loop, handle);
    start(handle, wait);
}

static void start_all(const struct measurement *what)
{
    for (size_t i = 0; i < what->timers; i++)
        start_new(&handles[i], what->waits[i]);
}

/* What the loop does so much later. */
static void make_pass(int64_t later)
{
    clock_now += later;
    uv_run(&loop, UV_RUN_NOWAIT);
}

static uint64_t pass_start_cancel(const struct measurement *what)
{
    open_loop(what->timers);
    uv_timer_t *one = &handles[what->timers];
    start_all(what);
    uv_timer_init(&loop, one);
    uint64_t begun = nanoseconds();
    for (size_t i = 0; i < what->calls; i++) {
        start(one, TIMEOUT);
        uv_timer_stop(one);
    }
    expect(!uv_is_active((uv_handle_t *)one));
    return close_since(begun, what->timers + 1);
}

static uint64_t pass_start(const struct measurement *what)
{
    open_loop(what->timers);
    uint64_t begun = nanoseconds();
    start_all(what);
    return close_since(begun, what->timers);
}

static uint64_t pass_cancel(const struct measurement *what)
{
    open_loop(what->timers);
    start_all(what);
    uint64_t begun = nanoseconds();
    for (size_t i = 0; i < what->timers; i++)
        uv_timer_stop(&handles[what->order[i]]);
    return close_since(begun, what->timers);
}

static uint64_t pass_restart(const struct measurement *what)
{
    open_loop(what->timers);
    for (size_t i = 0; i < what->timers; i++)
        start_new(&handles[i], IDLE_TIMEOUT);
    uint64_t begun = nanoseconds();
    for (size_t i = 0; i < what->calls; i++) {
        if (i % PACKETS == 0) {
            clock_now += MILLISECOND;
            uv_update_time(&loop);
        }
        start(&handles[what->rounds[i]], IDLE_TIMEOUT);
    }
    return close_since(begun, what->timers);
}

/* The handles of a connection stand beside each other: the idle timeout's, and that of the request's. */
static uint64_t pass_packet(const struct measurement *what)
{
    open_loop(2 * what->timers);
    for (size_t i = 0; i < what->timers; i++) {
        start_new(&handles[2 * i], IDLE_TIMEOUT);
        start_new(&handles[2 * i + 1], REQUEST_TIMEOUT);
    }
    uint64_t begun = nanoseconds();
    for (size_t i = 0; i < what->calls; i++) {
        uv_timer_t *idle = &handles[2 * (size_t)what->rounds[i]];
        if (i % PACKETS == 0)
            make_pass(MILLISECOND);
        start(idle, IDLE_TIMEOUT);
        uv_timer_stop(idle + 1);
        start(idle + 1, REQUEST_TIMEOUT);
    }
    expect(expired == 0);
    return close_since(begun, 2 * what->timers);
}

static uint64_t pass_idle_pass(const struct measurement *what)
{
    open_loop(what->timers);
    for (size_t i = 0; i < what->timers; i++)
        start_new(&handles[i], TIMEOUT + what->waits[i]);
    uint64_t begun = nanoseconds();
    for (size_t i = 0; i < what->calls; i++)
        make_pass(MICROSECOND);
    expect(expired == 0);
    return close_since(begun, what->timers);
}

static uint64_t pass_expire_at_once(const struct measurement *what)
{
    open_loop(what->timers);
    for (size_t i = 0; i < what->timers; i++)
        start_new(&handles[i], 1);
    uint64_t begun = nanoseconds();
    make_pass(2 * MILLISECOND);
    expect(expired == what->timers);
    return close_since(begun, what->timers);
}

static uint64_t pass_expire_spread(const struct measurement *what)
{
    open_loop(what->timers);
    start_all(what);
    uint64_t begun = nanoseconds();
    for (size_t i = 0; i < SPREAD; i++)
        make_pass(MILLISECOND);
    expect(expired == what->timers);
    return close_since(begun, what->timers);
}

static uint64_t bytes(const struct measurement *what)
{
    uint64_t before = resident();
    open_loop(what->timers);
    start_all(what);
    uint64_t after = resident();
    (void)close_since(0, what->timers);
    return after - before;
}

int main(int argc, char **argv)
{
    static const struct operation operations[] = {
        {"start_cancel", pass_start_cancel, 1},     {"start", pass_start, 0},
        {"cancel", pass_cancel, 0},                 {"restart", pass_restart, 1},
        {"packet", pass_packet, 1},                 {"idle_pass", pass_idle_pass, 1},
        {"expire_at_once", pass_expire_at_once, 0}, {"expire_spread", pass_expire_spread, 0},
    };
    int status = run(argc, argv, uv_version_string(), operations, sizeof operations / sizeof operations[0], bytes);
    free(handles);
    return status;
}
