/*
 * Timers that repeat at a fixed rate, and an alarm at a time of the day that stays right if the system clock is set.
 * The readings of the clocks are made up here, so that the program waits for nothing.
 *
 *     cc repeating.c -o repeating $(pkg-config --cflags --libs ertime)
 */
#include <inttypes.h>
#include <stdio.h>
#include <stdlib.h>

#include "ertime.h"

#define MILLISECOND INT64_C(1000000)
#define SECOND (1000 * MILLISECOND)

enum { PROCESS = 0, SCHED = 0, EACH = 1, LATEST = 2, ALARM = 3 };

static void must(const char *call, int32_t status) {
    if (status != ERT_OK) {
        fprintf(stderr, "%s: %s\n", call, ert_status_text(status));
        exit(EXIT_FAILURE);
    }
}

static void tick(ert_world *world, int64_t mono, int64_t sys, ert_moved *moved) {
    ert_reading reading = {mono, sys};
    /* A check is forced, so that the offset follows the system clock at once and not within a minute. */
    must("ert_world_tick", ert_world_tick(world, &reading, 1, moved));
}

static void start(ert_world *world, const ert_start *what) {
    ert_timer timer;
    must("ert_world_start", ert_world_start(world, SCHED, what, &timer));
}

/* Makes turns until no timer is due, and says what came. A deadline that has passed is due at the next turn. */
static void pass(ert_world *world, ert_repeat *each, ert_repeat *latest) {
    uint64_t left_out;
    ert_turned turned;
    ert_mail mail;
    int64_t now;
    do {
        must("ert_world_turn", ert_world_turn(world, SCHED, &turned));
        now = (int64_t)turned.to;
        while (ert_world_take(world, PROCESS, &mail) == ERT_OK) {
            if (mail.msg == EACH) {
                printf("%4" PRId64 " ms: each, due at %" PRId64 "\n", now, each->start.when);
                start(world, ert_repeat_next(each));
            } else {
                printf("%4" PRId64 " ms: latest, due at %" PRId64, now, latest->start.when);
                start(world, ert_repeat_skip(latest, now, &left_out));
                printf(", %" PRIu64 " left out\n", left_out);
            }
        }
    } while (turned.expired != 0);
}

static void repeating(void) {
    ert_world world = ERT_INIT;
    ert_reading first = {0, 0};
    ert_settings settings;
    ert_moved moved;
    ert_repeat each = {{.when = 100, .absolute = 1, .msg = EACH, .dest = PROCESS}, 100};
    ert_repeat latest = {{.when = 100, .absolute = 1, .msg = LATEST, .dest = PROCESS}, 100};
    /* The turn at 350 ms comes late: at 200 and at 300 there was none. */
    static const int64_t turns[] = {100, 350, 400};
    ert_settings_init(&settings, &first);
    must("ert_world_open", ert_world_open(&world, &settings));
    start(&world, &each.start);
    start(&world, &latest.start);
    for (size_t i = 0; i < sizeof turns / sizeof *turns; i++) {
        tick(&world, turns[i] * MILLISECOND, turns[i] * MILLISECOND, &moved);
        pass(&world, &each, &latest);
    }
    must("ert_world_close", ert_world_close(&world));
}

/* What starts an alarm at a system time: that time less the offset is the monotonic time, rounded up to a millisecond. */
static ert_start alarm_at(ert_world *world, int64_t system) {
    ert_offset offset;
    must("ert_world_time_offset", ert_world_time_offset(world, &offset));
    int64_t due = system - offset.offset;
    int64_t milliseconds = due / MILLISECOND + (due % MILLISECOND > 0);
    ert_start what = {.when = milliseconds, .absolute = 1, .msg = ALARM, .dest = PROCESS};
    return what;
}

static void show(const char *what, int64_t system) {
    int64_t seconds = system / SECOND % (24 * 3600);
    printf("%02" PRId64 ":%02" PRId64 ":%02" PRId64 " %s\n", seconds / 3600, seconds / 60 % 60, seconds % 60, what);
}

static void alarm_of_the_day(void) {
    static const int64_t day = 20000 * INT64_C(86400) * SECOND;
    const int64_t eight = day + 8 * 3600 * SECOND, nine = eight + 3600 * SECOND;
    /* After half an hour the system clock is set back by ten minutes. So by then 08:20 is read. */
    const ert_reading readings[] = {
        {1800 * SECOND, eight + 1200 * SECOND},
        {3600 * SECOND, eight + 3000 * SECOND},
        {4200 * SECOND, nine},
    };
    ert_world world = ERT_INIT;
    ert_reading first = {0, eight};
    ert_settings settings;
    ert_moved moved;
    ert_turned turned;
    ert_mail mail;
    uint32_t monitor, told;
    int64_t system;
    ert_settings_init(&settings, &first);
    must("ert_world_open", ert_world_open(&world, &settings));
    must("ert_world_monitor", ert_world_monitor(&world, PROCESS, &monitor));
    ert_start start = alarm_at(&world, nine);
    ert_timer alarm;
    must("ert_world_start", ert_world_start(&world, SCHED, &start, &alarm));
    for (size_t i = 0; i < sizeof readings / sizeof *readings; i++) {
        tick(&world, readings[i].mono, readings[i].sys, &moved);
        must("ert_world_system_time", ert_world_system_time(&world, &system));
        show("a turn", system);
        if (moved.shifted) {
            must("ert_world_notify", ert_world_notify(&world, PROCESS, &told));
        }
        must("ert_world_turn", ert_world_turn(&world, SCHED, &turned));
        while (ert_world_take(&world, PROCESS, &mail) == ERT_OK) {
            if (mail.tag == ERT_CHANGE) {
                start = alarm_at(&world, nine);
                must("ert_world_restart", ert_world_restart(&world, &alarm, &start));
                show("the clock was set, and the alarm is moved", system);
            } else {
                show("the alarm", system);
            }
        }
    }
    must("ert_world_close", ert_world_close(&world));
}

int main(void) {
    repeating();
    alarm_of_the_day();
    return EXIT_SUCCESS;
}
