/*
 * How often an event loop wakes. There is no clock: the loop goes by the answers of ert_world_next_due alone, as if it
 * slept for just as long. What is expected stands in ertime.h.
 */
#include <inttypes.h>
#include <stdio.h>
#include <stdlib.h>

#include "ertime.h"

#define MILLISECOND INT64_C(1000000)
#define DAY INT64_C(86400000)

enum { FEW = 64, SLOTS = 4096, MOST_WAKES = 5 };

/* Readings of the OS clock end at 2^62 nanoseconds, 146 years. Deadlines end at 2^43 milliseconds, 278 years. */
static const int64_t LAST_TIME = (INT64_C(1) << 62) / MILLISECOND - 1;
static const int64_t LAST_DEADLINE = (INT64_C(1) << 43) - 1;

static ert_world world = ERT_INIT;
static int64_t now;

static void expect(int line, const char *what, int64_t got, int64_t wanted) {
    if (got != wanted) {
        fprintf(stderr, "line %d: %s is %" PRId64 ", not %" PRId64 "\n", line, what, got, wanted);
        exit(EXIT_FAILURE);
    }
}

#define IS(got, wanted) expect(__LINE__, #got, (int64_t)(got), (int64_t)(wanted))

static void open_at(int64_t milliseconds) {
    const ert_settings settings = {
        .size = sizeof settings,
        .mode = ERT_MULTI_WARP, /* so that monotonic time goes with `mono` alone */
        .correction = 1,
        .schedulers = 1,
        .processes = 1,
        .slots = SLOTS,
        .callers = 1,
        .looks = 64,
    };
    ert_turned turned;
    IS(ert_world_open(&world, &settings), ERT_OK);
    now = milliseconds;
    ert_reading reading = {now * MILLISECOND, 0};
    ert_moved moved;
    IS(ert_world_tick(&world, &reading, 0, &moved), ERT_OK);
    IS(ert_world_turn(&world, 0, &turned), ERT_OK);
    IS(turned.to, now);
}

static void start(int64_t deadline) {
    ert_start what = {.when = deadline, .absolute = 1};
    ert_timer timer;
    IS(ert_world_start(&world, 0, &what, &timer), ERT_OK);
}

/* Sleeps until the next answer, and makes a turn: the time goes on, and no timer comes late. Tells how many came. */
static uint32_t wake(void) {
    uint64_t due;
    ert_turned turned;
    ert_mail mail;
    IS(ert_world_next_due(&world, 0, &due), ERT_OK);
    IS((int64_t)due > now, true);
    now = (int64_t)due;
    ert_reading reading = {now * MILLISECOND, 0};
    ert_moved moved;
    IS(ert_world_tick(&world, &reading, 0, &moved), ERT_OK);
    IS(ert_world_turn(&world, 0, &turned), ERT_OK);
    IS(turned.to, now);
    for (uint32_t left = turned.put; left > 0; left--) {
        IS(ert_world_take(&world, 0, &mail), ERT_OK);
    }
    return turned.expired;
}

/* So many timers with one deadline, at the end of a wait that begins at a time: each comes then, and so soon. */
static void sleeps(int64_t begin, int64_t wait, uint32_t timers, int most) {
    int wakes = 0;
    uint64_t due;
    open_at(begin);
    for (uint32_t k = 0; k < timers; k++) {
        start(begin + wait);
    }
    for (uint32_t expired = 0; expired < timers;) {
        uint32_t more = wake();
        IS(more == 0 || now == begin + wait, true);
        expired += more;
        wakes += 1;
    }
    IS(now, begin + wait);
    IS(wakes <= most, true);
    IS(ert_world_next_due(&world, 0, &due), ERT_EMPTY);
    IS(ert_world_close(&world), ERT_OK);
}

/* Timers that are due later, whatever window they are in, don't make the loop wake more often. */
static void sleeps_beside_others(void) {
    const int64_t deadline = 36500 * DAY;
    int wakes = 1;
    open_at(0);
    for (uint32_t k = 0; k <= FEW; k++) {
        start(deadline);
        for (int64_t later = 1; deadline + later <= LAST_DEADLINE; later *= 512) {
            start(deadline + later);
        }
    }
    for (; wake() == 0; wakes++) {
    }
    IS(now, deadline);
    IS(wakes <= MOST_WAKES, true);
    IS(ert_world_close(&world), ERT_OK);
}

/* Timers that are started late: the least deadline is told, until a turn has made them expire. */
static void late_timers(void) {
    uint64_t due;
    ert_turned turned;
    open_at(1000);
    start(1001);
    IS(ert_world_next_due(&world, 0, &due), ERT_OK);
    IS(due, 1001);
    for (uint32_t k = 0; k <= FEW; k++) {
        start(995);
        start(1001);
    }
    start(990);
    start(1001);
    IS(ert_world_next_due(&world, 0, &due), ERT_OK);
    IS(due, 990);
    IS(ert_world_turn(&world, 0, &turned), ERT_OK);
    IS(turned.expired, FEW + 2);
    IS(ert_world_next_due(&world, 0, &due), ERT_OK);
    IS(due, 1001);
    IS(ert_world_close(&world), ERT_OK);
}

int main(void) {
    const int64_t waits[] = {1,       2,         511,       512,       513,        1000,           1024,
                             60000,   262143,    262144,    3600000,   DAY,        49 * DAY,       365 * DAY,
                             3650 * DAY, 36500 * DAY};
    const int64_t begins[] = {0, 1, 511, 512, 262143, 1000003, 365 * DAY + 77};
    for (size_t w = 0; w < sizeof waits / sizeof *waits; w++) {
        for (size_t b = 0; b < sizeof begins / sizeof *begins; b++) {
            sleeps(begins[b], waits[w], 1, 1);
            sleeps(begins[b], waits[w], FEW, 1);
            sleeps(begins[b], waits[w], FEW + 1, MOST_WAKES);
            sleeps(begins[b], waits[w], SLOTS, MOST_WAKES);
        }
    }
    sleeps(0, LAST_TIME, 1, 1);
    sleeps(0, LAST_TIME, SLOTS, MOST_WAKES);
    sleeps_beside_others();
    late_timers();

    /* The last deadline is told, though no reading comes to it. */
    uint64_t due;
    open_at(0);
    start(LAST_DEADLINE);
    IS(ert_world_next_due(&world, 0, &due), ERT_OK);
    IS(due, LAST_DEADLINE);
    IS(ert_world_close(&world), ERT_OK);
    return EXIT_SUCCESS;
}
