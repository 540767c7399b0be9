/*
 * Timers that a seat or another shard cancelled: they wake no event loop, and their slots can be used again. There is no
 * clock, as in wakes.c. What is expected stands in ertime.h.
 */
#include <inttypes.h>
#include <stdio.h>
#include <stdlib.h>

#include "ertime.h"

#define MILLISECOND INT64_C(1000000)

/* A request in each millisecond, with a timeout that another thread cancels at once. */
enum { REQUESTS = 20000, TIMEOUT = 30000, MOST_WAKES = 20, AT_ONCE = 1024, SLOTS = 65536 };

static int64_t now;

static void expect(int line, const char *what, int64_t got, int64_t wanted) {
    if (got != wanted) {
        fprintf(stderr, "line %d: %s is %" PRId64 ", not %" PRId64 "\n", line, what, got, wanted);
        exit(EXIT_FAILURE);
    }
}

#define IS(got, wanted) expect(__LINE__, #got, (int64_t)(got), (int64_t)(wanted))

static ert_settings settings_of(uint32_t schedulers, uint32_t callers) {
    ert_reading first = {0, 0};
    ert_settings settings;
    ert_settings_init(&settings, &first);
    settings.schedulers = schedulers;
    settings.processes = schedulers;
    settings.callers = callers;
    settings.slots = SLOTS;
    return settings;
}

static void tick(ert_world *world) {
    ert_reading reading = {now * MILLISECOND, now * MILLISECOND};
    ert_moved moved;
    ert_turned turned;
    IS(ert_world_tick(world, &reading, 0, &moved), ERT_OK);
    IS(ert_world_turn(world, 0, &turned), ERT_OK);
    IS(turned.to, now);
}

static uint64_t held(ert_world *world) {
    uint64_t count = 7;
    IS(ert_world_held(world, 0, &count), ERT_OK);
    return count;
}

/* Starts the timers of so many requests, each of which a seat cancels at once. */
static void requests(ert_world *world, ert_seat *seat, int count) {
    for (int i = 0; i < count; i++) {
        ert_start start = {.when = TIMEOUT};
        ert_timer timer;
        uint64_t left;
        now += 1;
        tick(world);
        IS(ert_world_start(world, 0, &start, &timer), ERT_OK);
        IS(ert_seat_cancel(seat, &timer, &left), ERT_OK);
        IS(left, TIMEOUT);
    }
}

/* The loop sleeps until the answers, as long as there are any. */
static int wakes(ert_world *world) {
    int count = 0;
    uint64_t due;
    while (ert_world_next_due(world, 0, &due) == ERT_OK) {
        IS((int64_t)due > now, 1);
        now = (int64_t)due;
        tick(world);
        count += 1;
    }
    return count;
}

static void by_a_seat(void) {
    ert_world world = ERT_INIT;
    ert_seat seat = ERT_INIT;
    ert_settings settings = settings_of(1, 2);
    uint64_t dropped = 7;
    uint64_t due;
    now = 0;
    IS(ert_world_open(&world, &settings), ERT_OK);
    IS(ert_seat_open(&seat, &world), ERT_OK);

    requests(&world, &seat, REQUESTS);
    IS(held(&world), REQUESTS);
    IS(wakes(&world) <= MOST_WAKES, 1);
    IS(held(&world), 0);

    /* One that is armed is found behind those that aren't, and they don't wake the loop before it. */
    requests(&world, &seat, AT_ONCE - 1);
    ert_start start = {.when = 2 * TIMEOUT};
    ert_timer timer;
    IS(ert_world_start(&world, 0, &start, &timer), ERT_OK);
    IS(held(&world), AT_ONCE);
    IS(ert_world_next_due(&world, 0, &due), ERT_OK);
    IS(held(&world), 1);
    IS((int64_t)due > now + TIMEOUT, 1);

    /* The call that lets go of all, with one that stays. */
    requests(&world, &seat, REQUESTS);
    IS(held(&world), REQUESTS + 1);
    IS(ert_world_drop_settled(&world, 0, &dropped), ERT_OK);
    IS(dropped, REQUESTS);
    IS(held(&world), 1);
    IS(ert_world_drop_settled(&world, 0, &dropped), ERT_OK);
    IS(dropped, 0);
    IS(ert_world_cancel(&world, &timer, &due), ERT_OK);
    IS(ert_world_next_due(&world, 0, &due), ERT_EMPTY);
    IS(ert_seat_close(&seat), ERT_OK);
    IS(ert_world_close(&world), ERT_OK);
}

/* The timers of one shard, cancelled by another. */
static void by_a_shard(void) {
    ert_hub hub = ERT_INIT;
    ert_shard shard = ERT_INIT;
    ert_shard other = ERT_INIT;
    ert_settings settings = settings_of(2, 3);
    ert_start start = {.when = TIMEOUT, .dest = 1};
    uint64_t count = 7;
    IS(ert_hub_open(&hub, &settings), ERT_OK);
    IS(ert_hub_shard(&hub, &shard, 1), ERT_OK);
    IS(ert_hub_shard(&hub, &other, 1), ERT_OK);
    for (int round = 0; round < 2; round++) {
        for (int i = 0; i < AT_ONCE; i++) {
            ert_timer timer;
            IS(ert_shard_start(&shard, &start, &timer), ERT_OK);
            IS(ert_shard_cancel(&other, &timer, &count), ERT_OK);
        }
        IS(ert_shard_held(&shard, &count), ERT_OK);
        IS(count, AT_ONCE);
        if (round == 0) {
            IS(ert_shard_next_due(&shard, &count), ERT_EMPTY);
        } else {
            IS(ert_shard_drop_settled(&shard, &count), ERT_OK);
            IS(count, AT_ONCE);
        }
        IS(ert_shard_held(&shard, &count), ERT_OK);
        IS(count, 0);
    }
    IS(ert_shard_close(&shard), ERT_OK);
    IS(ert_shard_close(&other), ERT_OK);
    IS(ert_hub_close(&hub), ERT_OK);
}

int main(void) {
    by_a_seat();
    by_a_shard();
    puts("timers that others cancelled wake no loop and keep no slot");
    return EXIT_SUCCESS;
}
