/* Nanoseconds of each call of the library, the least of some runs. */
#define _POSIX_C_SOURCE 199309L
#include <inttypes.h>
#include <stdio.h>
#include <stdlib.h>
#include <time.h>

#include "ertime.h"

/* Of how many runs the least counts. */
#ifndef RUNS
#define RUNS 7
#endif

enum {
    CALLS = 1000000,
    LOOKS = 2000,
    USES = 200000,
    SLOTS = 65536,
    MILLION = 1000000,
    PROCESSES = 1024,
    MONITORS = 64,
    SPREAD = 60000,
};

/* In milliseconds. */
#define MINUTE INT64_C(60000)
#define HOUR (60 * MINUTE)
#define YEAR (365 * 24 * HOUR)

static int64_t nanoseconds(void) {
    struct timespec now;
    clock_gettime(CLOCK_MONOTONIC, &now);
    return (int64_t)now.tv_sec * 1000000000 + now.tv_nsec;
}

static ert_world world;
static ert_seat seat;
static ert_reading reading;

static void must(int32_t status) {
    if (status != ERT_OK) {
        fprintf(stderr, "status %" PRId32 "\n", status);
        exit(EXIT_FAILURE);
    }
}

static void open_with(uint32_t slots, uint32_t processes, uint32_t mode) {
    ert_settings settings = {
        .size = sizeof settings,
        .mode = mode,
        .schedulers = 1,
        .processes = processes,
        .slots = slots,
        .callers = 2,
        .looks = 64,
    };
    reading = settings.first;
    must(ert_world_open(&world, &settings));
    must(ert_seat_open(&seat, &world));
}

static void open_world(void) {
    open_with(SLOTS, 1, ERT_NO_WARP);
}

static void os_clock(void) {
    struct timespec now;
    clock_gettime(CLOCK_MONOTONIC, &now);
}

static void monotonic_time(void) {
    int64_t time;
    must(ert_world_monotonic_time(&world, &time));
}

static void system_time(void) {
    int64_t time;
    must(ert_world_system_time(&world, &time));
}

static void time_offset(void) {
    ert_offset offset;
    must(ert_world_time_offset(&world, &offset));
}

static void tick(void) {
    ert_moved moved;
    reading.mono += 100;
    reading.sys += 100;
    must(ert_world_tick(&world, &reading, 0, &moved));
}

static ert_timer timer;

static void start_and_cancel(void) {
    ert_start start = {.when = 500};
    uint64_t left;
    must(ert_world_start(&world, 0, &start, &timer));
    must(ert_world_cancel(&world, &timer, &left));
}

static void read_timer(void) {
    uint64_t left;
    must(ert_world_read(&world, &timer, &left));
}

static void seat_monotonic_time(void) {
    int64_t time;
    must(ert_seat_monotonic_time(&seat, &time));
}

static void seat_read(void) {
    uint64_t left;
    must(ert_seat_read(&seat, &timer, &left));
}

static void start_and_seat_cancel(void) {
    ert_start start = {.when = 0};
    ert_turned turned;
    uint64_t left;
    must(ert_world_start(&world, 0, &start, &timer));
    must(ert_seat_cancel(&seat, &timer, &left));
    must(ert_world_turn(&world, 0, &turned));
}

/* A request that the scheduler serves, and whose answer is taken. */
static void start_and_ask(void) {
    ert_start start = {.when = 500};
    ert_mail mail;
    uint32_t served;
    must(ert_world_start(&world, 0, &start, &timer));
    must(ert_world_ask(&world, &(ert_request){.kind = ERT_CANCEL, .timer = timer, .info = 1}));
    must(ert_world_serve(&world, 0, &served));
    must(ert_world_take(&world, 0, &mail));
}

static void turn(void) {
    ert_turned turned;
    must(ert_world_turn(&world, 0, &turned));
}

static void next_due(void) {
    uint64_t due;
    must(ert_world_next_due(&world, 0, &due));
}

static void timer_in(int64_t milliseconds) {
    ert_start start = {.when = milliseconds};
    must(ert_world_start(&world, 0, &start, &timer));
}

static void print(const char *name, double least) {
    printf("%-52s %9.1f\n", name, least);
}

static void measure(const char *name, void (*call)(void), int calls) {
    double least = 1e18;
    for (int run = 0; run < RUNS; run++) {
        int64_t begun = nanoseconds();
        for (int i = 0; i < calls; i++) {
            call();
        }
        double each = (double)(nanoseconds() - begun) / calls;
        least = each < least ? each : least;
    }
    print(name, least);
}

static void close_world(void) {
    must(ert_world_close(&world));
    must(ert_seat_close(&seat));
}

/* How early one of so many timers is due: the last so far ahead, and each other so much before the next. */
static void measure_next_due(const char *name, int64_t ahead, int64_t apart, int64_t timers) {
    char row[64];
    open_world();
    for (int64_t i = 0; i < timers; i++) {
        timer_in(ahead - i * apart);
    }
    snprintf(row, sizeof row, "ert_world_next_due, %" PRId64 " timers %s", timers, name);
    measure(row, next_due, LOOKS);
    close_world();
}

static void tick_by(int64_t milliseconds) {
    ert_moved moved;
    reading.mono += milliseconds * 1000000;
    reading.sys += milliseconds * 1000000;
    must(ert_world_tick(&world, &reading, 0, &moved));
}

static void advance_by(int64_t milliseconds) {
    ert_advanced advanced;
    tick_by(milliseconds);
    must(ert_world_advance(&world, 0, &advanced));
}

static void advance_a_millisecond(void) {
    advance_by(1);
}

static void advance_an_hour(void) {
    advance_by(HOUR);
}

static void advance_a_year(void) {
    advance_by(YEAR);
}

/* Time goes on again and again, by a tick and an advance, with one timer that isn't due yet. */
static void measure_leap(const char *name, void (*call)(void), int calls) {
    open_world();
    timer_in(140 * YEAR);
    measure(name, call, calls);
    close_world();
}

static void measure_far(void) {
    static const int64_t timers[] = {1, 1000, SLOTS};
    for (int i = 0; i < 3; i++) {
        measure_next_due("in a minute", MINUTE, 0, timers[i]);
        measure_next_due("in an hour", HOUR, 0, timers[i]);
        measure_next_due("in a year", YEAR, 0, timers[i]);
        measure_next_due("over an hour", HOUR, HOUR / SLOTS, timers[i]);
    }
    measure_leap("a tick and an advance of a millisecond", advance_a_millisecond, CALLS);
    measure_leap("a tick and an advance of an hour", advance_an_hour, 10000);
    measure_leap("a tick and an advance of a year", advance_a_year, 10);
}

/* The milliseconds of a timer, from 1 to a minute, by a generator of its own for each run. */
static int64_t wait_of(uint64_t *state) {
    *state = *state * UINT64_C(6364136223846793005) + UINT64_C(1442695040888963407);
    return 1 + (int64_t)((*state >> 33) % SPREAD);
}

static double longer(double longest, int64_t begun) {
    double took = (double)(nanoseconds() - begun);
    return took > longest ? took : longest;
}

/* The longest single call among as many timers as there are slots, of a run: of the advances of each millisecond until
 * all have expired, and of the starts after that. */
static void longest_calls(double *advance, double *start) {
    ert_advanced advanced;
    ert_delivered delivered;
    ert_mail mail;
    uint64_t state = 1;
    open_world();
    for (int i = 0; i < SLOTS; i++) {
        timer_in(wait_of(&state));
    }
    for (int i = 0; i < SPREAD; i++) {
        tick_by(1);
        int64_t begun = nanoseconds();
        must(ert_world_advance(&world, 0, &advanced));
        *advance = longer(*advance, begun);
        must(ert_world_deliver(&world, 0, &delivered));
        for (uint32_t put = 0; put < delivered.put; put++) {
            must(ert_world_take(&world, 0, &mail));
        }
    }
    for (int i = 0; i < SLOTS; i++) {
        int64_t wait = wait_of(&state), begun = nanoseconds();
        timer_in(wait);
        *start = longer(*start, begun);
    }
    close_world();
}

static void measure_longest(void) {
    double advance = 1e18, start = 1e18;
    for (int run = 0; run < RUNS; run++) {
        double advance_of_run = 0, start_of_run = 0;
        longest_calls(&advance_of_run, &start_of_run);
        advance = advance_of_run < advance ? advance_of_run : advance;
        start = start_of_run < start ? start_of_run : start;
    }
    print("the longest ert_world_start of 65536", start);
    print("the longest ert_world_advance by a millisecond", advance);
}

/* Each process but the first exits with one timer, beside many of the first. */
static double exits(void) {
    ert_start start = {.when = MINUTE};
    uint32_t first;
    open_with(SLOTS, PROCESSES, ERT_NO_WARP);
    for (uint32_t i = 0; i < SLOTS; i++) {
        start.dest = i < PROCESSES ? i : 0;
        must(ert_world_start(&world, 0, &start, &timer));
    }
    int64_t begun = nanoseconds();
    for (uint32_t process = 1; process < PROCESSES; process++) {
        must(ert_world_exit(&world, process, &first));
    }
    double each = (double)(nanoseconds() - begun) / (PROCESSES - 1);
    close_world();
    return each;
}

/* Each process is told of a new time offset, for all its monitors. */
static double tells(void) {
    ert_moved moved;
    uint32_t monitor, told;
    open_with(SLOTS, PROCESSES, ERT_MULTI_WARP);
    for (uint32_t i = 0; i < MONITORS * PROCESSES; i++) {
        must(ert_world_monitor(&world, i % PROCESSES, &monitor));
    }
    reading.mono += 1;
    reading.sys += INT64_C(1000000000);
    must(ert_world_tick(&world, &reading, 1, &moved));
    int64_t begun = nanoseconds();
    for (uint32_t process = 0; process < PROCESSES; process++) {
        must(ert_world_notify(&world, process, &told));
    }
    double each = (double)(nanoseconds() - begun) / PROCESSES;
    close_world();
    return each;
}

static void measure_whole(const char *name, double (*pass)(void)) {
    double least = 1e18;
    for (int run = 0; run < RUNS; run++) {
        double each = pass();
        least = each < least ? each : least;
    }
    print(name, least);
}

static void refused_start(void) {
    ert_start start = {.when = 500};
    ert_timer none;
    if (ert_world_start(&world, 0, &start, &none) != ERT_FULL) {
        fprintf(stderr, "the wheel isn't full\n");
        exit(EXIT_FAILURE);
    }
}

/* Beside a million timers, one due every 3.6 milliseconds, of which the first is an hour away. */
static void measure_million(void) {
    open_with(MILLION + 1, 1, ERT_NO_WARP);
    for (int64_t i = 0; i < MILLION; i++) {
        timer_in(HOUR + i * HOUR / MILLION);
    }
    /* The one free slot rests after 262,143 uses. */
    measure("ert_world_start and ert_world_cancel, 1000000 timers", start_and_cancel, USES / RUNS);
    measure("ert_world_turn with nothing to do, 1000000 timers", turn, CALLS);
    measure("ert_world_next_due, 1000000 timers", next_due, LOOKS);
    timer_in(HOUR);
    measure("ert_world_start on a full wheel, 1000001 timers", refused_start, LOOKS);
    close_world();
}

int main(void) {
    open_world();
    printf("%-52s %9s\n", "call", "ns");
    measure("clock_gettime(CLOCK_MONOTONIC)", os_clock, CALLS);
    measure("ert_world_monotonic_time", monotonic_time, CALLS);
    measure("ert_world_system_time", system_time, CALLS);
    measure("ert_world_time_offset", time_offset, CALLS);
    measure("ert_world_tick, each reading 100 ns later", tick, CALLS);
    measure("ert_world_start and ert_world_cancel", start_and_cancel, CALLS);
    measure("ert_world_start, ert_seat_cancel and ert_world_turn", start_and_seat_cancel, CALLS);
    measure("ert_world_start, and a cancel by a request", start_and_ask, CALLS);
    measure("ert_seat_monotonic_time", seat_monotonic_time, CALLS);
    timer_in(100000);
    measure("ert_seat_read of an armed timer", seat_read, CALLS);
    measure("ert_world_read of an armed timer", read_timer, CALLS);
    measure("ert_world_turn with nothing to do", turn, CALLS);
    measure("ert_world_next_due, the timer in 100 seconds", next_due, CALLS / 10);
    timer_in(10);
    measure("ert_world_next_due, the timer in 10 milliseconds", next_due, CALLS / 10);
    close_world();
    measure_whole("ert_world_exit of a process with one timer", exits);
    measure_whole("ert_world_notify of a process with 64 monitors", tells);
    measure_longest();
    measure_far();
    measure_million();
    return EXIT_SUCCESS;
}
