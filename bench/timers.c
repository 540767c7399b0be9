/*
 * Timers of ertime as a program in C calls them. It is called as the programs of bench/others are, with whose it shares
 * waits, order and passes (others/measure.h):
 *
 *     PROGRAM OPERATION TIMERS CALLS PASSES
 *
 * A service has 1,024 processes and wheels of 65,536 slots: one wheel up to 62,500 timers, otherwise four, of which each
 * takes a timer in turn. For more than 250,000 timers they have 262,144 slots each, and for more than a million 1,048,576.
 * Status 3: the library has no service of that size.
 *
 *     monotonic_time   `ert_world_monotonic_time`: that of the last tick
 *     start_cancel     `ert_world_start` and `ert_world_cancel` of a timer, beside the others
 *     start            in a new service
 *     start_again      the same after as many were cancelled in random order
 *     cancel           in random order; the names of the timers are at hand
 *     cancel_found     the same, but each name is looked up too, as the programs of bench/others look up their timers
 *     cancel_start     one of the timers is cancelled, in random order, and another started
 *     restart          `ert_world_restart` of one of the timers, in random order
 *     expire_at_once   one tick, a turn of each scheduler, and `ert_world_take` until there is no message
 *     expire_spread    the same in each of 60,000 milliseconds, with spread deadlines
 *     idle_turn        a tick, a microsecond after the last one, and a turn of a scheduler that finds no timer due
 *     next_due         `ert_world_next_due` of a scheduler
 *     bytes            by how much each timer lets the process grow
 *
 * With `LACKS_RESTART` defined it does without that call, for an archive of a library that did not have it yet.
 */
#define _POSIX_C_SOURCE 200809L

#include "others/measure.h"
#include <ertime.h>

enum { PROCESSES = 1024, WHEELS = 4, ONE_WHEEL = 62500, TOO_LARGE = 3 };
#define MICROSECOND INT64_C(1000)
#define MILLISECOND INT64_C(1000000)

static ert_world world;
/* 1 or 4: so a remainder is a mask. */
static uint32_t wheels;
static ert_timer *timers;

/* The slots of each wheel, for so many timers. */
static uint32_t slots_for(size_t count) {
    return count <= 250000 ? 65536 : count <= 1000000 ? 262144 : 1048576;
}

static void must(int32_t status) {
    expect(status == ERT_OK);
}

static void open_service(const struct measurement *what) {
    wheels = what->timers > ONE_WHEEL ? WHEELS : 1;
    ert_settings settings = {
        .size = sizeof settings,
        .correction = 1,
        .schedulers = wheels,
        .processes = PROCESSES,
        .slots = slots_for(what->timers),
        .callers = 1,
        .looks = 64,
    };
    int32_t status = ert_world_open(&world, &settings);
    if (status == ERT_BAD_COUNT) {
        fputs("the library has no service of that size\n", stderr);
        exit(TOO_LARGE);
    }
    must(status);
    if (timers == NULL) {
        timers = allocate(what->timers + 1, sizeof *timers);
        memset(timers, 0, (what->timers + 1) * sizeof *timers);
    }
}

static void close_service(void) {
    must(ert_world_close(&world));
}

static uint32_t wheel_of(size_t number) {
    return (uint32_t)number & (wheels - 1);
}

static void start(size_t number, uint32_t wait) {
    ert_start how = {.when = wait};
    must(ert_world_start(&world, wheel_of(number), &how, &timers[number]));
}

static void cancel(size_t number) {
    uint64_t left;
    must(ert_world_cancel(&world, &timers[number], &left));
}

static void start_all(const struct measurement *what) {
    for (size_t i = 0; i < what->timers; i++) {
        start(i, what->waits[i]);
    }
}

static void cancel_all(const struct measurement *what) {
    for (size_t i = 0; i < what->timers; i++) {
        cancel(i);
    }
}

static void open_started(const struct measurement *what) {
    open_service(what);
    start_all(what);
}

/* The same, and the names of the timers are put into random order. */
static void open_mixed(const struct measurement *what) {
    open_started(what);
    ert_timer *mixed = allocate(what->timers, sizeof *mixed);
    for (size_t i = 0; i < what->timers; i++) {
        mixed[i] = timers[what->order[i]];
    }
    memcpy(timers, mixed, what->timers * sizeof *mixed);
    free(mixed);
}

static void tick(int64_t time) {
    ert_reading reading = {time, time};
    ert_moved moved;
    must(ert_world_tick(&world, &reading, 0, &moved));
}

/* Makes a turn of each scheduler and takes the messages: how many there were. */
static size_t take_all(void) {
    size_t taken = 0;
    ert_turned turned;
    ert_mail mail;
    for (uint32_t wheel = 0; wheel < wheels; wheel++) {
        must(ert_world_turn(&world, wheel, &turned));
    }
    while (ert_world_take(&world, 0, &mail) == ERT_OK) {
        taken++;
    }
    return taken;
}

/* The nanoseconds since then; the service is closed. */
static uint64_t close_since(uint64_t begun) {
    uint64_t taken = nanoseconds() - begun;
    close_service();
    return taken;
}

static uint64_t pass_monotonic_time(const struct measurement *what) {
    int64_t time, sum = 0;
    open_service(what);
    tick(MILLISECOND);
    uint64_t begun = nanoseconds();
    for (size_t i = 0; i < what->calls; i++) {
        must(ert_world_monotonic_time(&world, &time));
        sum += time;
    }
    uint64_t taken = close_since(begun);
    expect(sum == (int64_t)what->calls * MILLISECOND);
    return taken;
}

static uint64_t pass_start_cancel(const struct measurement *what) {
    open_started(what);
    uint64_t begun = nanoseconds();
    for (size_t i = 0; i < what->calls; i++) {
        start(what->timers, TIMEOUT);
        cancel(what->timers);
    }
    return close_since(begun);
}

static uint64_t pass_start(const struct measurement *what) {
    open_service(what);
    uint64_t begun = nanoseconds();
    start_all(what);
    return close_since(begun);
}

static uint64_t pass_start_again(const struct measurement *what) {
    open_mixed(what);
    cancel_all(what);
    uint64_t begun = nanoseconds();
    start_all(what);
    return close_since(begun);
}

static uint64_t pass_cancel(const struct measurement *what) {
    open_mixed(what);
    uint64_t begun = nanoseconds();
    cancel_all(what);
    return close_since(begun);
}

static uint64_t pass_cancel_found(const struct measurement *what) {
    open_started(what);
    uint64_t begun = nanoseconds();
    for (size_t i = 0; i < what->timers; i++) {
        cancel(what->order[i]);
    }
    return close_since(begun);
}

static uint64_t pass_cancel_start(const struct measurement *what) {
    open_mixed(what);
    uint64_t begun = nanoseconds();
    for (size_t i = 0; i < what->timers; i++) {
        cancel(i);
        start(i, what->waits[i]);
    }
    return close_since(begun);
}

#ifndef LACKS_RESTART
static uint64_t pass_restart(const struct measurement *what) {
    open_mixed(what);
    uint64_t begun = nanoseconds();
    for (size_t i = 0, at = 0; i < what->calls; i++) {
        ert_start how = {.when = what->waits[at]};
        must(ert_world_restart(&world, &timers[at], &how));
        at = at + 1 < what->timers ? at + 1 : 0;
    }
    return close_since(begun);
}
#endif

static uint64_t pass_expire_at_once(const struct measurement *what) {
    open_service(what);
    for (size_t i = 0; i < what->timers; i++) {
        start(i, 1);
    }
    uint64_t begun = nanoseconds();
    tick(MILLISECOND);
    size_t taken = take_all();
    uint64_t took = close_since(begun);
    expect(taken == what->timers);
    return took;
}

static uint64_t pass_expire_spread(const struct measurement *what) {
    size_t taken = 0;
    open_started(what);
    uint64_t begun = nanoseconds();
    for (int64_t now = 1; now <= SPREAD; now++) {
        tick(now * MILLISECOND);
        taken += take_all();
    }
    uint64_t took = close_since(begun);
    expect(taken == what->timers);
    return took;
}

static uint64_t pass_idle_turn(const struct measurement *what) {
    ert_turned turned;
    uint32_t expired = 0;
    open_service(what);
    for (size_t i = 0; i < what->timers; i++) {
        start(i, TIMEOUT + what->waits[i]);
    }
    uint64_t begun = nanoseconds();
    for (size_t i = 0; i < what->calls; i++) {
        tick((int64_t)i * MICROSECOND);
        must(ert_world_turn(&world, wheel_of(i), &turned));
        expired += turned.expired;
    }
    uint64_t taken = close_since(begun);
    expect(expired == 0);
    return taken;
}

static uint64_t pass_next_due(const struct measurement *what) {
    uint64_t due, least = UINT64_MAX;
    open_started(what);
    uint64_t begun = nanoseconds();
    for (size_t i = 0; i < what->calls; i++) {
        must(ert_world_next_due(&world, wheel_of(i), &due));
        least = due < least ? due : least;
    }
    uint64_t taken = close_since(begun);
    expect(least <= SPREAD);
    return taken;
}

static uint64_t bytes(const struct measurement *what) {
    timers = allocate(what->timers + 1, sizeof *timers);
    memset(timers, 1, (what->timers + 1) * sizeof *timers);
    uint64_t before = resident();
    open_started(what);
    uint64_t after = resident();
    close_service();
    return after - before;
}

int main(int argc, char **argv) {
    static const struct operation operations[] = {
        {"monotonic_time", pass_monotonic_time, 1},
        {"start_cancel", pass_start_cancel, 1},
        {"start", pass_start, 0},
        {"start_again", pass_start_again, 0},
        {"cancel", pass_cancel, 0},
        {"cancel_found", pass_cancel_found, 0},
        {"cancel_start", pass_cancel_start, 0},
#ifndef LACKS_RESTART
        {"restart", pass_restart, 1},
#endif
        {"expire_at_once", pass_expire_at_once, 0},
        {"expire_spread", pass_expire_spread, 0},
        {"idle_turn", pass_idle_turn, 1},
        {"next_due", pass_next_due, 1},
    };
    char version[32];
    snprintf(version, sizeof version, "%d.%d.%d", ERTIME_VERSION_MAJOR, ERTIME_VERSION_MINOR, ERTIME_VERSION_PATCH);
    int status = run(argc, argv, version, operations, sizeof operations / sizeof operations[0], bytes);
    free(timers);
    return status;
}
