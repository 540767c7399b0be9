/*
 * The operations of bench/compare, as a server in C calls ertime: one scheduler, one process, and twice as many slots as
 * timers, as docs/EMBEDDING.md says. It is called as the programs of bench/others are, with whose it shares waits, order
 * and passes (others/measure.h):
 *
 *     PROGRAM OPERATION TIMERS CALLS PASSES
 *
 * The clock is one that the program moves, and each timer's name is looked up where the program keeps it.
 *
 *     start_cancel     `ert_world_start` and `ert_world_cancel` of one timer, beside the others
 *     start            in a new service
 *     cancel           in random order
 *     restart          idle timeouts: all wait IDLE_TIMEOUT, and one after another is restarted in random order, then all in
 *                      another one. A millisecond passes each PACKETS calls, with a tick and no turn.
 *     packet           the timers of a server, with TIMERS connections. Each packet restarts the idle timeout of its
 *                      connection, cancels its request's timeout and starts another. A millisecond passes each PACKETS
 *                      packets, and the loop makes a pass.
 *     idle_pass        a pass a microsecond after the last one, which finds no timer due
 *     expire_at_once   a pass that finds all timers due
 *     expire_spread    a pass in each of 60,000 milliseconds, with spread deadlines
 *     bytes            by how much each timer lets the process grow, its name included
 *
 * A pass is a tick, a turn, `ert_world_take` until there is no message if a timer expired, and `ert_world_next_due`.
 */
#define _POSIX_C_SOURCE 200809L

#include "others/measure.h"
#include <ertime.h>

#define MICROSECOND INT64_C(1000)
#define MILLISECOND INT64_C(1000000)

static ert_world world;
static ert_timer *timers;
/* The clock, in nanoseconds, and how many messages were taken. */
static int64_t now;
static size_t taken;

static void must(int32_t status) {
    expect(status == ERT_OK);
}

/* Opens a service for so many timers; later passes use the memory of their names again. */
static void open_service(size_t count) {
    ert_settings settings;
    ert_reading first = {0, 0};
    ert_settings_init(&settings, &first);
    settings.slots = (uint32_t)(2 * count + 64);
    must(ert_world_open(&world, &settings));
    if (timers == NULL) {
        timers = allocate(count + 1, sizeof *timers);
        memset(timers, 0, (count + 1) * sizeof *timers);
    }
    now = 0;
    taken = 0;
}

/* The nanoseconds since then; the service is closed. */
static uint64_t close_since(uint64_t begun) {
    uint64_t took = nanoseconds() - begun;
    must(ert_world_close(&world));
    return took;
}

static void start(size_t number, uint32_t wait) {
    ert_start how = {.when = wait, .msg = number};
    must(ert_world_start(&world, 0, &how, &timers[number]));
}

static void restart(size_t number, uint32_t wait) {
    ert_start how = {.when = wait, .msg = number};
    must(ert_world_restart(&world, &timers[number], &how));
}

static void cancel(size_t number) {
    uint64_t left;
    must(ert_world_cancel(&world, &timers[number], &left));
}

static void tick(int64_t later) {
    now += later;
    ert_reading reading = {now, now};
    ert_moved moved;
    must(ert_world_tick(&world, &reading, 0, &moved));
}

/* What a loop does so much later. */
static void make_pass(int64_t later) {
    ert_turned turned;
    ert_mail mail;
    uint64_t due;
    tick(later);
    must(ert_world_turn(&world, 0, &turned));
    if (turned.expired > 0) {
        while (ert_world_take(&world, 0, &mail) == ERT_OK) {
            taken++;
        }
    }
    (void)ert_world_next_due(&world, 0, &due);
}

static void open_started(const struct measurement *what) {
    open_service(what->timers);
    for (size_t i = 0; i < what->timers; i++) {
        start(i, what->waits[i]);
    }
}

static uint64_t pass_start_cancel(const struct measurement *what) {
    open_started(what);
    uint64_t begun = nanoseconds();
    for (size_t i = 0; i < what->calls; i++) {
        start(what->timers, TIMEOUT);
        cancel(what->timers);
    }
    return close_since(begun);
}

static uint64_t pass_start(const struct measurement *what) {
    open_service(what->timers);
    uint64_t begun = nanoseconds();
    for (size_t i = 0; i < what->timers; i++) {
        start(i, what->waits[i]);
    }
    return close_since(begun);
}

static uint64_t pass_cancel(const struct measurement *what) {
    open_started(what);
    uint64_t begun = nanoseconds();
    for (size_t i = 0; i < what->timers; i++) {
        cancel(what->order[i]);
    }
    return close_since(begun);
}

static uint64_t pass_restart(const struct measurement *what) {
    open_service(what->timers);
    for (size_t i = 0; i < what->timers; i++) {
        start(i, IDLE_TIMEOUT);
    }
    uint64_t begun = nanoseconds();
    for (size_t i = 0; i < what->calls; i++) {
        if (i % PACKETS == 0) {
            tick(MILLISECOND);
        }
        restart(what->rounds[i], IDLE_TIMEOUT);
    }
    return close_since(begun);
}

/* The names of a connection stand beside each other: the idle timeout's, and that of the request's. */
static uint64_t pass_packet(const struct measurement *what) {
    open_service(2 * what->timers);
    for (size_t i = 0; i < what->timers; i++) {
        start(2 * i, IDLE_TIMEOUT);
        start(2 * i + 1, REQUEST_TIMEOUT);
    }
    uint64_t begun = nanoseconds();
    for (size_t i = 0; i < what->calls; i++) {
        size_t idle = 2 * (size_t)what->rounds[i];
        if (i % PACKETS == 0) {
            make_pass(MILLISECOND);
        }
        restart(idle, IDLE_TIMEOUT);
        cancel(idle + 1);
        start(idle + 1, REQUEST_TIMEOUT);
    }
    expect(taken == 0);
    return close_since(begun);
}

static uint64_t pass_idle_pass(const struct measurement *what) {
    open_service(what->timers);
    for (size_t i = 0; i < what->timers; i++) {
        start(i, TIMEOUT + what->waits[i]);
    }
    uint64_t begun = nanoseconds();
    for (size_t i = 0; i < what->calls; i++) {
        make_pass(MICROSECOND);
    }
    expect(taken == 0);
    return close_since(begun);
}

static uint64_t pass_expire_at_once(const struct measurement *what) {
    open_service(what->timers);
    for (size_t i = 0; i < what->timers; i++) {
        start(i, 1);
    }
    uint64_t begun = nanoseconds();
    make_pass(MILLISECOND);
    expect(taken == what->timers);
    return close_since(begun);
}

static uint64_t pass_expire_spread(const struct measurement *what) {
    open_started(what);
    uint64_t begun = nanoseconds();
    for (size_t i = 0; i < SPREAD; i++) {
        make_pass(MILLISECOND);
    }
    expect(taken == what->timers);
    return close_since(begun);
}

static uint64_t bytes(const struct measurement *what) {
    uint64_t before = resident();
    open_started(what);
    uint64_t after = resident();
    must(ert_world_close(&world));
    return after - before;
}

int main(int argc, char **argv) {
    static const struct operation operations[] = {
        {"start_cancel", pass_start_cancel, 1},
        {"start", pass_start, 0},
        {"cancel", pass_cancel, 0},
        {"restart", pass_restart, 1},
        {"packet", pass_packet, 1},
        {"idle_pass", pass_idle_pass, 1},
        {"expire_at_once", pass_expire_at_once, 0},
        {"expire_spread", pass_expire_spread, 0},
    };
    char version[32];
    snprintf(version, sizeof version, "%d.%d.%d", ERTIME_VERSION_MAJOR, ERTIME_VERSION_MINOR, ERTIME_VERSION_PATCH);
    int status = run(argc, argv, version, operations, sizeof operations / sizeof operations[0], bytes);
    free(timers);
    return status;
}
