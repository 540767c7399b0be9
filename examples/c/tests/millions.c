/*
 * Very many timers on one wheel: a million, or as many as the argument says. They are due at random within a minute. Half of
 * them, chosen at random, are cancelled, and a minute passes by a millisecond at a time: each of the others is delivered
 * once, when it is due.
 */
#include <inttypes.h>
#include <stdio.h>
#include <stdlib.h>

#include "ertime.h"

#define MILLISECOND INT64_C(1000000)

enum { MINUTE = 60000, MOST_TIMERS = 1 << 24 };

typedef enum { ARMED, CANCELLED, DELIVERED } fate;

/* What the program knows of a timer, whose `msg` is its place among them. */
typedef struct {
    ert_timer timer;
    uint32_t when; /* in milliseconds */
    fate fate;
} told;

static void expect(int line, const char *what, int64_t got, int64_t wanted) {
    if (got != wanted) {
        fprintf(stderr, "line %d: %s is %" PRId64 ", not %" PRId64 "\n", line, what, got, wanted);
        exit(EXIT_FAILURE);
    }
}

#define IS(got, wanted) expect(__LINE__, #got, (int64_t)(got), (int64_t)(wanted))

/* A number below a bound, the same in every run. */
static uint32_t below(uint32_t bound) {
    static uint64_t state = 1;
    state = state * UINT64_C(6364136223846793005) + UINT64_C(1442695040888963407);
    return (uint32_t)(state >> 33) % bound;
}

static ert_world world;
static told *timers;
static uint32_t count;

static void open_world(void) {
    ert_reading first = {0, 0};
    ert_settings settings;
    ert_settings_init(&settings, &first);
    settings.slots = count;
    IS(ert_world_open(&world, &settings), ERT_OK);
}

/* As many timers as there are slots, and one more, which is refused. */
static void start_all(void) {
    for (uint32_t k = 0; k < count; k++) {
        timers[k].when = 1 + below(MINUTE);
        ert_start start = {.when = timers[k].when, .msg = k};
        IS(ert_world_start(&world, 0, &start, &timers[k].timer), ERT_OK);
    }
    ert_start more = {.when = 1};
    ert_timer none;
    IS(ert_world_start(&world, 0, &more, &none), ERT_FULL);
}

/* Each timer with the probability 1/2. Returns how many. */
static uint32_t cancel_half(void) {
    uint32_t cancelled = 0;
    for (uint32_t k = 0; k < count; k++) {
        if (below(2) == 0) {
            uint64_t left;
            IS(ert_world_cancel(&world, &timers[k].timer, &left), ERT_OK);
            IS(left, timers[k].when);
            timers[k].fate = CANCELLED;
            cancelled += 1;
        }
    }
    return cancelled;
}

/* Takes the messages of a millisecond. Returns how many. */
static uint32_t take_all(uint32_t now) {
    ert_mail mail;
    uint32_t delivered = 0;
    while (ert_world_take(&world, 0, &mail) == ERT_OK) {
        IS(mail.tag, ERT_TIMEOUT);
        IS(mail.msg < count, 1);
        told *it = &timers[mail.msg];
        IS(it->fate, ARMED);
        IS(it->when, now);
        IS(mail.timer.slot, it->timer.slot);
        IS(mail.timer.generation, it->timer.generation);
        it->fate = DELIVERED;
        delivered += 1;
    }
    return delivered;
}

/* Lets a minute pass. Returns how many timers were delivered. */
static uint32_t pass_minute(void) {
    uint32_t delivered = 0;
    for (uint32_t now = 1; now <= MINUTE; now++) {
        ert_reading reading = {now * MILLISECOND, now * MILLISECOND};
        ert_moved moved;
        ert_turned turned;
        IS(ert_world_tick(&world, &reading, 0, &moved), ERT_OK);
        IS(ert_world_turn(&world, 0, &turned), ERT_OK);
        IS(turned.to, now);
        uint32_t here = take_all(now);
        IS(turned.put, here);
        delivered += here;
    }
    return delivered;
}

int main(int argc, char **argv) {
    count = argc > 1 ? (uint32_t)strtoul(argv[1], NULL, 10) : 1000000;
    if (count < 1 || count > MOST_TIMERS) {
        fprintf(stderr, "usage: %s [TIMERS], 1 to %d\n", argv[0], MOST_TIMERS);
        return EXIT_FAILURE;
    }
    timers = calloc(count, sizeof *timers);
    IS(timers != NULL, 1);
    open_world();
    start_all();
    uint32_t cancelled = cancel_half();
    uint32_t delivered = pass_minute();
    IS(cancelled + delivered, count);
    uint32_t room;
    uint64_t ready;
    IS(ert_world_ready(&world, 0, &room, &ready), ERT_OK);
    IS(room, count);
    IS(ert_world_close(&world), ERT_OK);
    free(timers);
    return EXIT_SUCCESS;
}
