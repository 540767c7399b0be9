/*
 * The starts, cancels, expiries and idle turns of bench/ratio, once each, of the library and of bench/floor.c, so that
 * bench/spent can count the instructions of each. There are as many idle turns as timers:
 *
 *     spent LIBRARY TIMERS         LIBRARY is ertime or C
 *
 * Each phase is a function of its own, which callgrind is told to count. A call of plain C has the border of the
 * library's (CALLED of floor.c).
 */
#define CALLED
#define main floor_main
#include "floor.c"
#undef main

#include "ertime.h"
#include <string.h>

#define APART __attribute__((noinline))

static ert_world world;
static ert_timer *names_at;
static Timer *timers_at;
static uint32_t *waits_at;

static void must(int32_t status) {
    expect(status == ERT_OK);
}

static void open_world(uint32_t count) {
    ert_settings settings = {
        .size = sizeof settings,
        .correction = 1,
        .schedulers = count <= 62500 ? 1 : WHEELS,
        .processes = PROCESSES,
        .slots = SLOTS,
        .callers = 1,
        .looks = 64,
    };
    wheel_count = settings.schedulers;
    turn = 0;
    must(ert_world_open(&world, &settings));
}

static void ertime_start_all(uint32_t count, uint32_t later) {
    for (uint32_t i = 0; i < count; i++) {
        ert_start how = {.when = waits_at[i] + later};
        must(ert_world_start(&world, next_wheel(), &how, &names_at[i]));
    }
}

static void plain_start_all(uint32_t count, uint32_t later) {
    for (uint32_t i = 0; i < count; i++) {
        start_in_turn(waits_at[i] + later, &timers_at[i]);
    }
}

APART void ertime_start(uint32_t count) {
    ertime_start_all(count, 0);
    __asm__ volatile("");
}

APART void ertime_start_again(uint32_t count) {
    ertime_start_all(count, 0);
    __asm__ volatile("" ::: "memory");
}

APART void ertime_cancel(uint32_t count) {
    uint64_t left;
    for (uint32_t i = 0; i < count; i++) {
        must(ert_world_cancel(&world, &names_at[i], &left));
    }
}

APART void ertime_expire(uint32_t count) {
    uint32_t taken = 0;
    ert_moved moved;
    ert_turned turned;
    ert_mail letter;
    for (int64_t now = 1; now <= SPREAD; now++) {
        ert_reading reading = {now * (int64_t)MILLISECOND, now * (int64_t)MILLISECOND};
        must(ert_world_tick(&world, &reading, 0, &moved));
        for (uint32_t wheel = 0; wheel < wheel_count; wheel++) {
            must(ert_world_turn(&world, wheel, &turned));
        }
        while (ert_world_take(&world, 0, &letter) == ERT_OK) {
            taken++;
        }
    }
    expect(taken == count);
}

APART void ertime_idle(uint32_t count) {
    ert_moved moved;
    ert_turned turned;
    for (uint32_t i = 0; i < count; i++) {
        ert_reading reading = {i * (int64_t)MICROSECOND, i * (int64_t)MICROSECOND};
        must(ert_world_tick(&world, &reading, 0, &moved));
        must(ert_world_turn(&world, next_wheel(), &turned));
        expect(turned.expired == 0);
    }
}

APART void plain_start(uint32_t count) {
    plain_start_all(count, 0);
    __asm__ volatile("");
}

APART void plain_start_again(uint32_t count) {
    plain_start_all(count, 0);
    __asm__ volatile("" ::: "memory");
}

APART void plain_cancel(uint32_t count) {
    for (uint32_t i = 0; i < count; i++) {
        must_cancel(&timers_at[i]);
    }
}

APART void plain_expire(uint32_t count) {
    uint32_t taken = 0;
    for (uint64_t now = 1; now <= SPREAD; now++) {
        tick(now * MILLISECOND);
        for (uint32_t wheel = 0; wheel < wheel_count; wheel++) {
            if (advance(wheel) > 0) {
                deliver(wheel);
                taken += take_all();
            }
        }
    }
    expect(taken == count);
}

APART void plain_idle(uint32_t count) {
    for (uint32_t i = 0; i < count; i++) {
        tick(i * MICROSECOND);
        expect(advance(next_wheel()) == 0);
    }
}

/* The same order of cancels for both. */
static void order_names(uint32_t count) {
    uint64_t kept = seed;
    mix(timers_at, count);
    seed = kept;
    for (uint32_t left = count; left > 1; left--) {
        uint32_t other = drawn(left);
        ert_timer last = names_at[left - 1];
        names_at[left - 1] = names_at[other];
        names_at[other] = last;
    }
}

static void run_ertime(uint32_t count) {
    open_world(count);
    ertime_start(count);
    order_names(count);
    ertime_cancel(count);
    ertime_start_again(count);
    must(ert_world_close(&world));
    open_world(count);
    ertime_start_all(count, 0);
    ertime_expire(count);
    must(ert_world_close(&world));
    open_world(count);
    ertime_start_all(count, TIMEOUT);
    ertime_idle(count);
    must(ert_world_close(&world));
}

static void run_plain(uint32_t count) {
    open_rig(count);
    plain_start(count);
    order_names(count);
    plain_cancel(count);
    plain_start_again(count);
    close_rig();
    open_rig(count);
    plain_start_all(count, 0);
    plain_expire(count);
    close_rig();
    open_rig(count);
    plain_start_all(count, TIMEOUT);
    plain_idle(count);
    close_rig();
}

int main(int argc, char **argv) {
    bool is_ertime = argc == 3 && strcmp(argv[1], "ertime") == 0;
    uint32_t count = argc == 3 ? (uint32_t)strtoul(argv[2], NULL, 10) : 0;
    if (count == 0 || count > WHEELS * 62500 || !(is_ertime || strcmp(argv[1], "C") == 0)) {
        fputs("usage: spent ertime|C TIMERS\n", stderr);
        return 2;
    }
    names_at = room(count, sizeof *names_at);
    timers_at = room(count, sizeof *timers_at);
    waits_at = room(count, sizeof *waits_at);
    memset(names_at, 0, count * sizeof *names_at);
    memset(timers_at, 0, count * sizeof *timers_at);
    for (uint32_t i = 0; i < count; i++) {
        waits_at[i] = 1 + drawn(SPREAD);
    }
    if (is_ertime) {
        run_ertime(count);
    } else {
        run_plain(count);
    }
    free(names_at);
    free(timers_at);
    free(waits_at);
    return EXIT_SUCCESS;
}
