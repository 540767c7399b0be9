/* Makes one call of the library so many times, in a world that is the same however many these are. So the instructions
 * of a call are the difference of two runs by the difference of their calls (.ci/count_instructions).
 *
 *     instructions CALL NUMBER
 */
#include <inttypes.h>
#include <stdio.h>
#include <stdlib.h>
#include <string.h>

#include "ertime.h"

enum { SLOTS = 65536, OTHERS = 1000, SPREAD = 60000 };

static ert_world world;
static ert_reading reading;
static ert_timer timers[SLOTS];

static void must(int32_t status) {
    if (status != ERT_OK) {
        fprintf(stderr, "status %" PRId32 "\n", status);
        exit(EXIT_FAILURE);
    }
}

static void open_world(void) {
    ert_settings settings = {
        .size = sizeof settings,
        .schedulers = 1,
        .processes = 1,
        .slots = SLOTS,
        .callers = 1,
        .looks = 64,
    };
    reading = settings.first;
    must(ert_world_open(&world, &settings));
}

/* Starts a timer of up to a minute; each wait is another. */
static void start_one(uint32_t number) {
    ert_start start = {.when = 1 + (int64_t)number * 7919 % SPREAD};
    must(ert_world_start(&world, 0, &start, &timers[number]));
}

static void start_others(uint32_t count) {
    for (uint32_t i = 0; i < count; i++) {
        start_one(i);
    }
}

static void start(uint32_t calls) {
    start_others(calls);
}

static void cancel(uint32_t calls) {
    uint64_t left;
    start_others(SLOTS);
    for (uint32_t i = 0; i < calls; i++) {
        must(ert_world_cancel(&world, &timers[i], &left));
    }
}

static void start_cancel(uint32_t calls) {
    uint64_t left;
    start_others(OTHERS);
    for (uint32_t i = 0; i < calls; i++) {
        start_one(OTHERS);
        must(ert_world_cancel(&world, &timers[OTHERS], &left));
    }
}

static void restart(uint32_t calls) {
    start_others(OTHERS);
    for (uint32_t i = 0; i < calls; i++) {
        ert_start start = {.when = 1 + (int64_t)i * 7919 % SPREAD};
        must(ert_world_restart(&world, &timers[i % OTHERS], &start));
    }
}

static void read_timer(uint32_t calls) {
    uint64_t left;
    start_others(OTHERS);
    for (uint32_t i = 0; i < calls; i++) {
        must(ert_world_read(&world, &timers[0], &left));
    }
}

static void tick_and_idle_turn(uint32_t calls) {
    ert_start far = {.when = INT64_C(365) * 24 * 3600 * 1000};
    ert_moved moved;
    ert_turned turned;
    must(ert_world_start(&world, 0, &far, &timers[0]));
    for (uint32_t i = 0; i < calls; i++) {
        reading.mono += 1000000;
        reading.sys += 1000000;
        must(ert_world_tick(&world, &reading, 0, &moved));
        must(ert_world_turn(&world, 0, &turned));
    }
}

static void next_due(uint32_t calls) {
    uint64_t due;
    start_others(OTHERS);
    for (uint32_t i = 0; i < calls; i++) {
        must(ert_world_next_due(&world, 0, &due));
    }
}

static void monotonic_time(uint32_t calls) {
    int64_t time;
    for (uint32_t i = 0; i < calls; i++) {
        must(ert_world_monotonic_time(&world, &time));
    }
}

static const struct {
    const char *name;
    void (*make)(uint32_t calls);
} rows[] = {
    {"start", start},
    {"cancel", cancel},
    {"start_cancel", start_cancel},
    {"restart", restart},
    {"read", read_timer},
    {"tick_and_idle_turn", tick_and_idle_turn},
    {"next_due", next_due},
    {"monotonic_time", monotonic_time},
};

int main(int argc, char **argv) {
    unsigned long calls = argc == 3 ? strtoul(argv[2], NULL, 10) : 0;
    if (calls == 0 || calls > SLOTS) {
        fprintf(stderr, "usage: instructions CALL NUMBER\n");
        return 2;
    }
    for (size_t i = 0; i < sizeof rows / sizeof *rows; i++) {
        if (strcmp(argv[1], rows[i].name) == 0) {
            open_world();
            rows[i].make((uint32_t)calls);
            return 0;
        }
    }
    fprintf(stderr, "there is no call %s\n", argv[1]);
    return 2;
}
