/*
 * What the hosts of this folder share: a world with a timer that starts itself again, and input. A host is a library or a
 * call of the system that waits for input. It asks next_due how long it may wait; then come a tick, the input, and a turn. The
 * last beat writes to `input`, which the host watches. When that is readable the host calls take_input.
 */
#include <errno.h>
#include <inttypes.h>
#include <stdbool.h>
#include <stdio.h>
#include <stdlib.h>
#include <string.h>
#include <sys/eventfd.h>
#include <time.h>
#include <unistd.h>

#include "ertime.h"

enum { PROCESS = 0, SCHEDULER = 0, BEAT_MS = 20, LAST_BEAT = 3, SKIPPED = 77 };

static ert_world world = ERT_INIT;
static int64_t now; /* monotonic time of the last tick, in nanoseconds */
static uint64_t to; /* of the last turn, in milliseconds */
static int input;
static int beats;
static bool is_done;

static inline void must(const char *call, int32_t status) {
    if (status != ERT_OK) {
        fprintf(stderr, "%s: %s\n", call, ert_status_text(status));
        exit(EXIT_FAILURE);
    }
}

/* What the system returned: a negative number is the negated errno, as of liburing and libuv. */
static inline int must_succeed(const char *call, int result) {
    if (result < 0) {
        fprintf(stderr, "%s: %s\n", call, strerror(-result));
        exit(EXIT_FAILURE);
    }
    return result;
}

static inline void start_beat(void) {
    ert_start start = {.when = BEAT_MS, .dest = PROCESS};
    ert_timer timer;
    must("ert_world_start", ert_world_start(&world, SCHEDULER, &start, &timer));
}

static inline void open_world(void) {
    ert_reading first = ert_read_clocks();
    ert_settings settings;
    ert_settings_init(&settings, &first);
    must("ert_world_open", ert_world_open(&world, &settings));
    input = eventfd(0, EFD_CLOEXEC | EFD_NONBLOCK);
    must_succeed("eventfd", input < 0 ? -errno : 0);
    start_beat();
}

/* Whether a timer is armed, and when the next one may be due: so long the host may wait for input, or for ever. */
static inline bool next_due(uint64_t *due) {
    int32_t status = ert_world_next_due(&world, SCHEDULER, due);
    if (status != ERT_EMPTY) {
        must("ert_world_next_due", status);
    }
    return status == ERT_OK;
}

/* Lets time go on, before the input is handled: see "Polling" in EMBEDDING.md. */
static inline void tick(void) {
    ert_reading reading = ert_read_clocks();
    ert_moved moved;
    must("ert_world_tick", ert_world_tick(&world, &reading, 0, &moved));
    now = moved.now;
}

static inline void take_input(void) {
    eventfd_t value;
    must_succeed("eventfd_read", eventfd_read(input, &value) < 0 ? -errno : 0);
    printf("input\n");
    is_done = true;
}

/* Lets timers expire, and handles their messages. */
static inline void turn(void) {
    ert_turned turned;
    ert_mail mail;
    must("ert_world_turn", ert_world_turn(&world, SCHEDULER, &turned));
    to = turned.to;
    while (ert_world_take(&world, PROCESS, &mail) == ERT_OK) {
        beats += 1;
        printf("beat %d\n", beats);
        if (beats < LAST_BEAT) {
            start_beat();
        } else {
            must_succeed("eventfd_write", eventfd_write(input, 1) < 0 ? -errno : 0);
        }
    }
}

static inline int close_world(void) {
    close(input);
    must("ert_world_close", ert_world_close(&world));
    return EXIT_SUCCESS;
}
