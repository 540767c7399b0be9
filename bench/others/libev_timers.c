/*
 * Timers of libev, by the operations of `bench/compare.c`.
 *
 * A timer is an `ev_timer` that the program keeps; a start is `ev_timer_init` with `ev_timer_start`, and a
 * cancel `ev_timer_stop`. Both go by the time that the loop keeps, so neither asks the operating system, as
 * in ertime. They make no atomic step and know no owner. The clock is one that the program moves.
 *
 *     start_cancel     one `ev_timer` is started and stopped again
 *     start            in a new loop; the loop's heap grows meanwhile, while the watchers' memory was touched before
 *     cancel           in the order that all programs have
 *     restart          `ev_timer_again`, with `ev_now_update` where a millisecond has passed
 *     packet           the same for the idle timeout, and `ev_timer_stop`, `ev_timer_set` and `ev_timer_start` for the
 *                      request's; a pass of the loop where a millisecond has passed
 *     idle_pass        `ev_run` without a wait: it reads the clock and asks for events, which cost nothing here, and finds
 *                      no timer due
 *     expire_at_once   one `ev_run` without a wait takes all from the heap and calls them back: a callback that counts
 *                      is what stands for delivery, and nothing is queued or taken
 *     expire_spread    the same in each of 60,000 milliseconds, and once more for what was rounded up
 */
#define _POSIX_C_SOURCE 200809L

#include "moved_clock.h"

#include "measure.h"
#include <ev.h>

static ev_timer *watchers;
static size_t expired;

static void count_one(struct ev_loop *loop, ev_timer *watcher, int events)
{
    (void)loop;
    (void)watcher;
    (void)events;
    expired++;
}

/* A new loop, with memory for so many watchers, which later passes use again. */
static struct ev_loop *open_loop(size_t count)
{
    struct ev_loop *loop = ev_loop_new(EVFLAG_AUTO);
    expect(loop != NULL);
    if (watchers == NULL) {
        watchers = allocate(count + 1, sizeof *watchers);
        memset(watchers, 0, (count + 1) * sizeof *watchers);
    }
    expired = 0;
    return loop;
}

/* The nanoseconds since then; the loop is closed. */
static uint64_t close_since(uint64_t begun, struct ev_loop *loop)
{
    uint64_t taken = nanoseconds() - begun;
    ev_loop_destroy(loop);
    return taken;
}

static void start(struct ev_loop *loop, ev_timer *watcher, uint32_t wait)
{
    ev_timer_init(watcher, count_one, wait * 1e-3, 0.);
    ev_timer_start(loop, watcher);
}

/* Starts a timer that `ev_timer_again` restarts. */
static void start_idle(struct ev_loop *loop, ev_timer *watcher)
{
    ev_timer_init(watcher, count_one, 0., IDLE_TIMEOUT * 1e-3);
    ev_timer_again(loop, watcher);
}

static void start_all(struct ev_loop *loop, const struct measurement *what)
{
    for (size_t i = 0; i < what->timers; i++)
        start(loop, &watchers[i], what->waits[i]);
}

/* What the loop does so much later. */
static void make_pass(struct ev_loop *loop, int64_t later)
{
    clock_now += later;
    ev_run(loop, EVRUN_NOWAIT);
}

static uint64_t pass_start_cancel(const struct measurement *what)
{
    struct ev_loop *loop = open_loop(what->timers);
    ev_timer *one = &watchers[what->timers];
    start_all(loop, what);
    uint64_t begun = nanoseconds();
    for (size_t i = 0; i < what->calls; i++) {
        start(loop, one, TIMEOUT);
        ev_timer_stop(loop, one);
    }
    uint64_t taken = close_since(begun, loop);
    expect(!ev_is_active(one));
    return taken;
}

static uint64_t pass_start(const struct measurement *what)
{
    struct ev_loop *loop = open_loop(what->timers);
    uint64_t begun = nanoseconds();
    start_all(loop, what);
    uint64_t taken = close_since(begun, loop);
    for (size_t i = 0; i < what->timers; i++)
        expect(ev_is_active(&watchers[i]));
    return taken;
}

static uint64_t pass_cancel(const struct measurement *what)
{
    struct ev_loop *loop = open_loop(what->timers);
    start_all(loop, what);
    uint64_t begun = nanoseconds();
    for (size_t i = 0; i < what->timers; i++)
        ev_timer_stop(loop, &watchers[what->order[i]]);
    uint64_t taken = close_since(begun, loop);
    for (size_t i = 0; i < what->timers; i++)
        expect(!ev_is_active(&watchers[i]));
    return taken;
}

static uint64_t pass_restart(const struct measurement *what)
{
    struct ev_loop *loop = open_loop(what->timers);
    for (size_t i = 0; i < what->timers; i++)
        start_idle(loop, &watchers[i]);
    uint64_t begun = nanoseconds();
    for (size_t i = 0; i < what->calls; i++) {
        if (i % PACKETS == 0) {
            clock_now += MILLISECOND;
            ev_now_update(loop);
        }
        ev_timer_again(loop, &watchers[what->rounds[i]]);
    }
    return close_since(begun, loop);
}

/* The watchers of a connection stand beside each other: the idle timeout's, and that of the request's. */
static uint64_t pass_packet(const struct measurement *what)
{
    struct ev_loop *loop = open_loop(2 * what->timers);
    for (size_t i = 0; i < what->timers; i++) {
        start_idle(loop, &watchers[2 * i]);
        start(loop, &watchers[2 * i + 1], REQUEST_TIMEOUT);
    }
    uint64_t begun = nanoseconds();
    for (size_t i = 0; i < what->calls; i++) {
        ev_timer *idle = &watchers[2 * (size_t)what->rounds[i]];
        if (i % PACKETS == 0)
            make_pass(loop, MILLISECOND);
        ev_timer_again(loop, idle);
        ev_timer_stop(loop, idle + 1);
        ev_timer_set(idle + 1, REQUEST_TIMEOUT * 1e-3, 0.);
        ev_timer_start(loop, idle + 1);
    }
    expect(expired == 0);
    return close_since(begun, loop);
}

static uint64_t pass_idle_pass(const struct measurement *what)
{
    struct ev_loop *loop = open_loop(what->timers);
    for (size_t i = 0; i < what->timers; i++)
        start(loop, &watchers[i], TIMEOUT + what->waits[i]);
    uint64_t begun = nanoseconds();
    for (size_t i = 0; i < what->calls; i++)
        make_pass(loop, MICROSECOND);
    expect(expired == 0);
    return close_since(begun, loop);
}

static uint64_t pass_expire_at_once(const struct measurement *what)
{
    struct ev_loop *loop = open_loop(what->timers);
    for (size_t i = 0; i < what->timers; i++)
        start(loop, &watchers[i], 1);
    uint64_t begun = nanoseconds();
    make_pass(loop, 2 * MILLISECOND);
    expect(expired == what->timers);
    return close_since(begun, loop);
}

static uint64_t pass_expire_spread(const struct measurement *what)
{
    struct ev_loop *loop = open_loop(what->timers);
    start_all(loop, what);
    uint64_t begun = nanoseconds();
    for (size_t i = 0; i <= SPREAD; i++)
        make_pass(loop, MILLISECOND);
    expect(expired == what->timers);
    return close_since(begun, loop);
}

static uint64_t bytes(const struct measurement *what)
{
    uint64_t before = resident();
    struct ev_loop *loop = open_loop(what->timers);
    start_all(loop, what);
    uint64_t after = resident();
    ev_loop_destroy(loop);
    return after - before;
}

int main(int argc, char **argv)
{
    static const struct operation operations[] = {
        {"start_cancel", pass_start_cancel, 1},     {"start", pass_start, 0},
        {"cancel", pass_cancel, 0},                 {"restart", pass_restart, 1},
        {"packet", pass_packet, 1},                 {"idle_pass", pass_idle_pass, 1},
        {"expire_at_once", pass_expire_at_once, 0}, {"expire_spread", pass_expire_spread, 0},
    };
    char version[32];
    snprintf(version, sizeof version, "%d.%d", ev_version_major(), ev_version_minor());
    int status = run(argc, argv, version, operations, sizeof operations / sizeof operations[0], bytes);
    free(watchers);
    return status;
}
