/* Each call of the library with its answers, bad input included. What is expected stands in ertime.h. */
#define _POSIX_C_SOURCE 200809L
#include <inttypes.h>
#include <stddef.h>
#include <stdio.h>
#include <stdlib.h>
#include <string.h>
#include <time.h>

#include "ertime.h"

#define MILLISECOND INT64_C(1000000)

static int failed;

static void expect(int line, const char *what, int64_t got, int64_t wanted) {
    if (got != wanted) {
        fprintf(stderr, "line %d: %s is %" PRId64 ", not %" PRId64 "\n", line, what, got, wanted);
        failed += 1;
    }
}

#define IS(got, wanted) expect(__LINE__, #got, (int64_t)(got), (int64_t)(wanted))

/* What the library takes the structs that hold a timer for. */
_Static_assert(sizeof(ert_timer) == 16 && offsetof(ert_timer, generation) == 8, "a timer");
_Static_assert(sizeof(ert_mail) == 56 && offsetof(ert_mail, timer) == 8 && offsetof(ert_mail, has_left) == 24,
               "a message");
_Static_assert(sizeof(ert_request) == 32 && offsetof(ert_request, timer) == 8 && offsetof(ert_request, reply_to) == 24,
               "a request");

static const ert_settings plain = {
    .size = sizeof(ert_settings),
    .mode = ERT_NO_WARP,
    .correction = 1,
    .schedulers = 2,
    .processes = 3,
    .slots = 2,
    .callers = 1,
    .looks = 64,
    .start = 0,
    .first = {1000 * MILLISECOND, 5000 * MILLISECOND},
};

static void tick(ert_world *world, int64_t milliseconds) {
    ert_reading reading = {(1000 + milliseconds) * MILLISECOND, (5000 + milliseconds) * MILLISECOND};
    ert_moved moved;
    IS(ert_world_tick(world, &reading, 0, &moved), ERT_OK);
    IS(moved.now, milliseconds * MILLISECOND);
    IS(moved.shifted, 0);
}

static void closed_handles(void) {
    ert_world w = ERT_INIT;
    ert_reading reading = {0, 0};
    ert_moved moved = {7, 7, 7};
    ert_offset offset = {7, 7};
    ert_start start = {0, 0, 0, 0, 0};
    ert_timer timer = {7, 7, 7};
    ert_request request = {9, {0, 0, 0}, 9, 0};
    ert_mail mail;
    ert_advanced advanced;
    ert_delivered delivered;
    ert_turned turned;
    int64_t time = 7;
    uint64_t left = 7;
    uint32_t n = 7;
    IS(ert_world_tick(&w, &reading, 0, &moved), ERT_CLOSED);
    IS(ert_world_finalize(&w, &reading, &n, &moved), ERT_CLOSED);
    IS(ert_world_monotonic_time(&w, &time), ERT_CLOSED);
    IS(ert_world_system_time(&w, &time), ERT_CLOSED);
    IS(ert_world_time_offset(&w, &offset), ERT_CLOSED);
    IS(ert_world_start(&w, 9, &start, &timer), ERT_CLOSED);
    IS(ert_world_ready(&w, 9, &n, &left), ERT_CLOSED);
    IS(ert_world_cancel(&w, &timer, &left), ERT_CLOSED);
    IS(ert_world_read(&w, &timer, &left), ERT_CLOSED);
    IS(ert_world_is_alive(&w, 9, &n), ERT_CLOSED);
    IS(ert_world_exit(&w, 9, &n), ERT_CLOSED);
    IS(ert_world_ask(&w, &request), ERT_CLOSED);
    IS(ert_world_take(&w, 9, &mail), ERT_CLOSED);
    IS(ert_world_monitor(&w, 9, &n), ERT_CLOSED);
    IS(ert_world_demonitor(&w, 9, 0), ERT_CLOSED);
    IS(ert_world_notify(&w, 9, &n), ERT_CLOSED);
    IS(ert_world_serve(&w, 9, &n), ERT_CLOSED);
    IS(ert_world_advance(&w, 9, &advanced), ERT_CLOSED);
    IS(ert_world_deliver(&w, 9, &delivered), ERT_CLOSED);
    IS(ert_world_turn(&w, 9, &turned), ERT_CLOSED);
    IS(ert_world_next_due(&w, 9, &left), ERT_CLOSED);
    IS(ert_world_close(&w), ERT_CLOSED);
    IS(time, 7);
    IS(left, 7);
    IS(n, 7);
    IS(moved.now, 7);
    IS(offset.offset, 7);
    IS(timer.slot, 7);
}

static void refuse(ert_settings settings, int32_t status) {
    ert_world w = ERT_INIT;
    IS(ert_world_open(&w, &settings), status);
    IS(ert_world_close(&w), ERT_CLOSED);
}

static void bad_settings(void) {
    ert_settings s;
    s = plain, s.size = 8, refuse(s, ERT_BAD_SIZE);
    s = plain, s.mode = 3, refuse(s, ERT_BAD_MODE);
    s = plain, s.start = 1, refuse(s, ERT_BAD_START);
    s = plain, s.first.mono = -1, refuse(s, ERT_BAD_READING);
    s = plain, s.first.sys = INT64_MIN, refuse(s, ERT_BAD_READING);
    s = plain, s.schedulers = 1025, refuse(s, ERT_BAD_COUNT);
    s = plain, s.processes = 0, refuse(s, ERT_BAD_COUNT);
    s = plain, s.processes = 524289, refuse(s, ERT_BAD_COUNT);
    s = plain, s.schedulers = 1024, s.processes = 65537, refuse(s, ERT_BAD_COUNT);
    s = plain, s.slots = 16777217, refuse(s, ERT_BAD_COUNT);
    s = plain, s.schedulers = 5, s.slots = 16777216, refuse(s, ERT_BAD_COUNT);
    s = plain, s.callers = 1026, refuse(s, ERT_BAD_COUNT);
    s = plain, s.looks = 0, refuse(s, ERT_BAD_COUNT);
}

static void open_twice(void) {
    ert_world w = ERT_INIT;
    IS(ert_world_open(&w, &plain), ERT_OK);
    IS(ert_world_open(&w, &plain), ERT_OPEN);
    IS(ert_world_close(&w), ERT_OK);
    IS(ert_world_close(&w), ERT_CLOSED);
    IS(ert_world_open(&w, &plain), ERT_OK);
    IS(ert_world_close(&w), ERT_OK);
}

static void clock_calls(void) {
    ert_world w = ERT_INIT;
    ert_settings settings = plain;
    settings.mode = ERT_SINGLE_WARP;
    int64_t time;
    ert_offset offset;
    ert_moved moved;
    uint32_t before;
    IS(ert_world_open(&w, &settings), ERT_OK);
    IS(ert_world_monotonic_time(&w, &time), ERT_OK);
    IS(time, 0);
    IS(ert_world_system_time(&w, &time), ERT_OK);
    IS(time, 5000 * MILLISECOND);
    IS(ert_world_time_offset(&w, &offset), ERT_OK);
    IS(offset.offset, 5000 * MILLISECOND);
    IS(offset.state, ERT_PRELIMINARY);
    tick(&w, 40);
    IS(ert_world_monotonic_time(&w, &time), ERT_OK);
    IS(time, 40 * MILLISECOND);

    ert_reading bad = {-1, 0};
    moved.now = 7;
    IS(ert_world_tick(&w, &bad, 1, &moved), ERT_BAD_READING);
    IS(ert_world_finalize(&w, &bad, &before, &moved), ERT_BAD_READING);
    IS(moved.now, 7);

    ert_reading later = {1060 * MILLISECOND, 9060 * MILLISECOND};
    IS(ert_world_finalize(&w, &later, &before, &moved), ERT_OK);
    IS(before, ERT_PRELIMINARY);
    IS(moved.now, 60 * MILLISECOND);
    IS(moved.shifted, 1);
    IS(moved.shift, 9000 * MILLISECOND);
    IS(ert_world_time_offset(&w, &offset), ERT_OK);
    IS(offset.state, ERT_FINAL);
    IS(offset.offset, 9000 * MILLISECOND);
    IS(ert_world_finalize(&w, &later, &before, &moved), ERT_OK);
    IS(before, ERT_FINAL);
    IS(moved.shifted, 0);
    IS(ert_world_close(&w), ERT_OK);
}

static void wide_offset(void) {
    ert_world w = ERT_INIT;
    ert_settings settings = plain;
    settings.mode = ERT_SINGLE_WARP;
    settings.first.mono = 0;
    settings.first.sys = 0;
    uint32_t before = 7;
    int64_t time;
    ert_moved moved = {7, 7, 7};
    IS(ert_world_open(&w, &settings), ERT_OK);
    /* System time would be 3 * 2^61 below monotonic time. */
    ert_reading apart = {(INT64_C(1) << 62) - 1, -(INT64_C(1) << 61) + 1};
    IS(ert_world_finalize(&w, &apart, &before, &moved), ERT_OFFSET_WIDE);
    IS(before, 7);
    IS(moved.now, 7);
    IS(ert_world_monotonic_time(&w, &time), ERT_OK);
    IS(time, 0);
    IS(ert_world_close(&w), ERT_OK);
}

static void timer_calls(void) {
    ert_world w = ERT_INIT;
    ert_start s = {.when = 50, .msg = 11, .dest = 1};
    ert_timer a, b, c = {7, 7, 7};
    ert_mail mail;
    ert_turned turned;
    ert_advanced advanced;
    ert_delivered delivered;
    uint64_t left = 7;
    uint64_t due = 7;
    uint32_t room = 7;
    IS(ert_world_open(&w, &plain), ERT_OK);
    IS(ert_world_ready(&w, 2, &room, &left), ERT_RANGE);
    IS(room, 7);
    IS(left, 7);
    IS(ert_world_ready(&w, 1, &room, &left), ERT_OK);
    IS(room, 2);
    IS(left, 0);
    IS(ert_world_next_due(&w, 0, &due), ERT_EMPTY);
    IS(ert_world_next_due(&w, 2, &due), ERT_RANGE);
    IS(due, 7);

    IS(ert_world_start(&w, 2, &s, &c), ERT_RANGE);
    s.dest = 3;
    IS(ert_world_start(&w, 0, &s, &c), ERT_RANGE);
    s.dest = 1;
    s.when = -1;
    IS(ert_world_start(&w, 0, &s, &c), ERT_BAD_TIME);
    IS(c.slot, 7);
    s.when = 50;
    IS(ert_world_start(&w, 0, &s, &a), ERT_OK);
    s.when = 3000;
    s.absolute = 1;
    s.bare = 1;
    s.msg = 12;
    IS(ert_world_start(&w, 0, &s, &b), ERT_OK);
    IS(ert_world_start(&w, 0, &s, &c), ERT_FULL);
    IS(c.slot, 7);
    IS(ert_world_ready(&w, 0, &room, &left), ERT_OK);
    IS(room, 0);
    IS(left, 0);

    IS(ert_world_next_due(&w, 0, &due), ERT_OK);
    IS(due, 50);
    IS(ert_world_read(&w, &a, &left), ERT_OK);
    IS(left, 50);
    left = 7;
    IS(ert_world_read(&w, &c, &left), ERT_NO_TIMER);
    IS(ert_world_cancel(&w, &c, &left), ERT_NO_TIMER);
    IS(left, 7);

    tick(&w, 49);
    IS(ert_world_turn(&w, 0, &turned), ERT_OK);
    IS(turned.to, 49);
    IS(turned.expired, 0);
    IS(ert_world_take(&w, 1, &mail), ERT_EMPTY);
    tick(&w, 50);
    IS(ert_world_turn(&w, 0, &turned), ERT_OK);
    IS(turned.to, 50);
    IS(turned.served, 0);
    IS(turned.expired, 1);
    IS(turned.put, 1);
    IS(turned.dropped, 0);
    IS(ert_world_take(&w, 1, &mail), ERT_OK);
    IS(mail.tag, ERT_TIMEOUT);
    IS(mail.msg, 11);
    IS(mail.timer.wheel, a.wheel);
    IS(mail.timer.slot, a.slot);
    IS(mail.timer.generation, a.generation);
    IS(ert_world_take(&w, 3, &mail), ERT_RANGE);
    IS(ert_world_cancel(&w, &a, &left), ERT_NO_TIMER);

    IS(ert_world_next_due(&w, 0, &due), ERT_OK);
    IS(due, 3000);
    tick(&w, 3000);
    IS(ert_world_next_due(&w, 0, &due), ERT_OK);
    IS(due, 3000);
    IS(ert_world_advance(&w, 0, &advanced), ERT_OK);
    IS(advanced.to, 3000);
    IS(advanced.expired, 1);
    IS(ert_world_advance(&w, 2, &advanced), ERT_RANGE);
    IS(ert_world_deliver(&w, 0, &delivered), ERT_OK);
    IS(delivered.put, 1);
    IS(delivered.dropped, 0);
    IS(ert_world_deliver(&w, 2, &delivered), ERT_RANGE);
    IS(ert_world_turn(&w, 2, &turned), ERT_RANGE);
    IS(ert_world_take(&w, 1, &mail), ERT_OK);
    IS(mail.tag, ERT_BARE);
    IS(mail.msg, 12);
    IS(mail.timer.slot, 0);
    IS(ert_world_next_due(&w, 0, &due), ERT_EMPTY);

    s.when = 4000;
    IS(ert_world_start(&w, 1, &s, &b), ERT_OK);
    IS(ert_world_cancel(&w, &b, &left), ERT_OK);
    IS(left, 1000);
    IS(ert_world_next_due(&w, 1, &due), ERT_EMPTY);
    IS(ert_world_close(&w), ERT_OK);
}

static void request_calls(void) {
    ert_world w = ERT_INIT;
    ert_start s = {.when = 80, .msg = 5, .dest = 0};
    ert_timer timer;
    ert_mail mail;
    uint32_t served = 7;
    IS(ert_world_open(&w, &plain), ERT_OK);
    IS(ert_world_start(&w, 1, &s, &timer), ERT_OK);
    ert_request r = {.kind = 2, .timer = timer, .reply_to = 9, .info = 1};
    IS(ert_world_ask(&w, &r), ERT_BAD_KIND);
    r.kind = ERT_READ;
    IS(ert_world_ask(&w, &r), ERT_RANGE);
    r.reply_to = 2;
    IS(ert_world_ask(&w, &r), ERT_OK);
    r.kind = ERT_CANCEL;
    IS(ert_world_ask(&w, &r), ERT_OK);
    IS(ert_world_ask(&w, &r), ERT_OK);
    IS(ert_world_serve(&w, 2, &served), ERT_RANGE);
    IS(ert_world_serve(&w, 0, &served), ERT_OK);
    IS(served, 0);
    for (int i = 0; i < 3; i++) {
        IS(ert_world_serve(&w, 1, &served), ERT_OK);
        IS(served, 1);
    }
    IS(ert_world_take(&w, 2, &mail), ERT_OK);
    IS(mail.tag, ERT_READ_DONE);
    IS(mail.has_left, 1);
    IS(mail.left, 80);
    IS(ert_world_take(&w, 2, &mail), ERT_OK);
    IS(mail.tag, ERT_CANCEL_DONE);
    IS(mail.has_left, 1);
    IS(mail.left, 80);
    IS(ert_world_take(&w, 2, &mail), ERT_OK);
    IS(mail.tag, ERT_CANCEL_DONE);
    IS(mail.has_left, 0);
    IS(mail.left, 0);
    IS(ert_world_take(&w, 2, &mail), ERT_EMPTY);
    IS(ert_world_close(&w), ERT_OK);
}

static void process_calls(void) {
    ert_world w = ERT_INIT;
    ert_start s = {.when = 80, .msg = 5, .dest = 2};
    ert_timer timer;
    ert_mail mail;
    uint64_t left;
    uint32_t flag = 7;
    IS(ert_world_open(&w, &plain), ERT_OK);
    IS(ert_world_is_alive(&w, 3, &flag), ERT_RANGE);
    IS(ert_world_exit(&w, 3, &flag), ERT_RANGE);
    IS(flag, 7);
    IS(ert_world_is_alive(&w, 2, &flag), ERT_OK);
    IS(flag, 1);
    IS(ert_world_start(&w, 0, &s, &timer), ERT_OK);
    IS(ert_world_exit(&w, 2, &flag), ERT_OK);
    IS(flag, 1);
    IS(ert_world_exit(&w, 2, &flag), ERT_OK);
    IS(flag, 0);
    IS(ert_world_is_alive(&w, 2, &flag), ERT_OK);
    IS(flag, 0);
    IS(ert_world_read(&w, &timer, &left), ERT_NO_TIMER);
    IS(ert_world_take(&w, 2, &mail), ERT_EXITED);
    IS(ert_world_close(&w), ERT_OK);
}

static void monitor_calls(void) {
    ert_world w = ERT_INIT;
    ert_settings settings = plain;
    settings.mode = ERT_SINGLE_WARP;
    uint32_t monitor = 7, told = 7, before;
    ert_mail mail;
    ert_moved moved;
    IS(ert_world_open(&w, &settings), ERT_OK);
    IS(ert_world_monitor(&w, 3, &monitor), ERT_RANGE);
    IS(ert_world_notify(&w, 3, &told), ERT_RANGE);
    IS(ert_world_demonitor(&w, 3, 1), ERT_RANGE);
    IS(ert_world_monitor(&w, 0, &monitor), ERT_OK);
    IS(ert_world_notify(&w, 0, &told), ERT_OK);
    IS(told, 0);
    ert_reading later = {1000 * MILLISECOND, 6000 * MILLISECOND};
    IS(ert_world_finalize(&w, &later, &before, &moved), ERT_OK);
    IS(ert_world_notify(&w, 0, &told), ERT_OK);
    IS(told, 1);
    IS(ert_world_take(&w, 0, &mail), ERT_OK);
    IS(mail.tag, ERT_CHANGE);
    IS(mail.monitor, monitor);
    IS(mail.offset, 6000 * MILLISECOND);
    IS(ert_world_demonitor(&w, 0, monitor), ERT_OK);
    IS(ert_world_demonitor(&w, 0, monitor), ERT_NO_MONITOR);
    for (int i = 0; i < 64; i++) {
        IS(ert_world_monitor(&w, 1, &monitor), ERT_OK);
    }
    IS(ert_world_monitor(&w, 1, &monitor), ERT_FULL);
    IS(ert_world_close(&w), ERT_OK);
}

/*
 * A start that knows of no free slot looks at so many as the settings say, from where the last such look stopped: so it
 * is refused until the looks come to the slot whose timer a seat has cancelled. What the world cancels is known at once, and
 * what ert_world_ready has seen is found by the next start.
 */
static void few_looks(void) {
    ert_world w = ERT_INIT;
    ert_seat seat = ERT_INIT;
    ert_settings settings = plain;
    ert_start start = {.when = 50};
    ert_timer timers[4], timer;
    uint64_t left;
    uint32_t room;
    settings.slots = 4;
    settings.callers = 2;
    settings.looks = 1;
    IS(ert_world_open(&w, &settings), ERT_OK);
    IS(ert_seat_open(&seat, &w), ERT_OK);
    for (uint32_t i = 0; i < 4; i++) {
        IS(ert_world_start(&w, 0, &start, &timers[i]), ERT_OK);
        IS(timers[i].slot, i);
    }
    IS(ert_world_start(&w, 0, &start, &timer), ERT_FULL);
    IS(ert_seat_cancel(&seat, &timers[2], &left), ERT_OK);
    IS(ert_world_start(&w, 0, &start, &timer), ERT_FULL);
    IS(ert_world_start(&w, 0, &start, &timer), ERT_OK);
    IS(timer.slot, 2);
    IS(ert_world_start(&w, 0, &start, &timer), ERT_FULL);
    IS(ert_world_cancel(&w, &timers[1], &left), ERT_OK);
    IS(ert_world_start(&w, 0, &start, &timer), ERT_OK);
    IS(timer.slot, 1);
    IS(ert_seat_cancel(&seat, &timers[3], &left), ERT_OK);
    IS(ert_world_ready(&w, 0, &room, &left), ERT_OK);
    IS(room, 1);
    IS(ert_world_start(&w, 0, &start, &timer), ERT_OK);
    IS(timer.slot, 3);
    IS(ert_world_close(&w), ERT_OK);
    IS(ert_seat_close(&seat), ERT_OK);
}

static void seat_calls(void) {
    ert_world w = ERT_INIT;
    ert_seat a = ERT_INIT, b = ERT_INIT, c = ERT_INIT;
    ert_settings settings = plain;
    settings.callers = 3;
    ert_start s = {.when = 80, .msg = 5, .dest = 2};
    ert_timer timer, none = {0, 0, 9};
    ert_offset offset = {7, 7};
    ert_mail mail;
    ert_turned turned;
    int64_t time = 7;
    uint64_t left = 7;
    uint32_t flag = 7;
    IS(ert_seat_open(&a, &w), ERT_CLOSED);
    IS(ert_seat_close(&a), ERT_CLOSED);
    IS(ert_seat_monotonic_time(&a, &time), ERT_CLOSED);
    IS(ert_seat_system_time(&a, &time), ERT_CLOSED);
    IS(ert_seat_time_offset(&a, &offset), ERT_CLOSED);
    IS(ert_seat_cancel(&a, &none, &left), ERT_CLOSED);
    IS(ert_seat_read(&a, &none, &left), ERT_CLOSED);
    IS(ert_seat_is_alive(&a, 9, &flag), ERT_CLOSED);
    IS(time, 7);
    IS(offset.offset, 7);
    IS(left, 7);
    IS(flag, 7);

    IS(ert_world_open(&w, &settings), ERT_OK);
    IS(ert_seat_open(&a, &w), ERT_OK);
    IS(ert_seat_open(&a, &w), ERT_OPEN);
    IS(ert_seat_open(&b, &w), ERT_OK);
    IS(ert_seat_open(&c, &w), ERT_NO_SEAT);
    IS(ert_seat_close(&c), ERT_CLOSED);

    tick(&w, 30);
    IS(ert_seat_monotonic_time(&a, &time), ERT_OK);
    IS(time, 30 * MILLISECOND);
    IS(ert_seat_system_time(&b, &time), ERT_OK);
    IS(time, 5030 * MILLISECOND);
    IS(ert_seat_time_offset(&b, &offset), ERT_OK);
    IS(offset.offset, 5000 * MILLISECOND);
    IS(offset.state, ERT_FINAL);
    IS(ert_world_monotonic_time(&w, &time), ERT_OK);
    IS(time, 30 * MILLISECOND);

    IS(ert_world_start(&w, 1, &s, &timer), ERT_OK);
    IS(ert_seat_read(&a, &timer, &left), ERT_OK);
    IS(left, 80);
    IS(ert_seat_read(&a, &none, &left), ERT_NO_TIMER);
    IS(ert_seat_cancel(&b, &timer, &left), ERT_OK);
    IS(left, 80);
    IS(ert_seat_cancel(&a, &timer, &left), ERT_NO_TIMER);
    IS(ert_world_cancel(&w, &timer, &left), ERT_NO_TIMER);
    IS(left, 80);
    IS(ert_world_start(&w, 1, &s, &timer), ERT_OK);
    IS(ert_world_start(&w, 1, &s, &timer), ERT_OK);
    IS(ert_world_start(&w, 1, &s, &timer), ERT_FULL);
    tick(&w, 110);
    IS(ert_world_turn(&w, 1, &turned), ERT_OK);
    IS(turned.put, 2);
    IS(ert_seat_cancel(&a, &timer, &left), ERT_NO_TIMER);
    IS(ert_world_take(&w, 2, &mail), ERT_OK);

    IS(ert_seat_is_alive(&a, 3, &flag), ERT_RANGE);
    IS(ert_seat_is_alive(&a, 2, &flag), ERT_OK);
    IS(flag, 1);
    IS(ert_world_exit(&w, 2, &flag), ERT_OK);
    IS(ert_seat_is_alive(&b, 2, &flag), ERT_OK);
    IS(flag, 0);

    IS(ert_seat_close(&b), ERT_OK);
    IS(ert_seat_close(&b), ERT_CLOSED);
    IS(ert_seat_open(&b, &w), ERT_NO_SEAT);
    IS(ert_world_close(&w), ERT_OK);
    IS(ert_seat_monotonic_time(&a, &time), ERT_OK);
    IS(time, 110 * MILLISECOND);
    IS(ert_seat_close(&a), ERT_OK);
}

/* What the header has inline: the sleep until a time, and names that are equal. */
static void header_alone(void) {
    static const struct {
        uint64_t due;
        uint64_t to;
        int32_t ms;
    } waits[] = {
        {0, 0, 0}, {5, 5, 0}, {4, 5, 0}, {6, 5, 1}, {1000, 5, 995}, {(uint64_t)INT32_MAX + 5, 5, INT32_MAX}, {UINT64_MAX, 0, INT32_MAX},
    };
    static const struct {
        uint64_t due;
        int64_t start;
        int64_t now;
        int64_t ns;
    } exact[] = {
        {0, 0, 0, 0},
        {5, 0, 4999999, 1},
        {5, 0, 5000000, 0},
        {5, 0, 6000000, 0},
        {5, -2000000, -1500000, 4500000},
        {5, 3000000, 4000001, 3999999},
        {2500, 0, 1, INT64_C(2499999999)},
        {UINT64_MAX, 0, 0, INT64_C(1) << 62},
    };
    const ert_timer timer = {1, 2, 3};
    const ert_timer same = {1, 2, 3};
    const ert_timer others[] = {{0, 2, 3}, {1, 0, 3}, {1, 2, 0}};
    for (size_t i = 0; i < sizeof waits / sizeof *waits; i++) {
        IS(ert_wait_ms(waits[i].due, waits[i].to), waits[i].ms);
    }
    for (size_t i = 0; i < sizeof exact / sizeof *exact; i++) {
        struct timespec wait = ert_wait_timespec(exact[i].due, exact[i].start, exact[i].now);
        IS(ert_wait_ns(exact[i].due, exact[i].start, exact[i].now), exact[i].ns);
        IS(wait.tv_sec, exact[i].ns / 1000000000);
        IS(wait.tv_nsec, exact[i].ns % 1000000000);
    }
    IS(ert_timer_equal(&timer, &same), true);
    for (size_t i = 0; i < sizeof others / sizeof *others; i++) {
        IS(ert_timer_equal(&timer, &others[i]), false);
    }
}

/* What the header has inline over other calls: the messages of a process alone are dropped, and what is armed stays so. */
static void drop_mail(void) {
    ert_world w = ERT_INIT;
    ert_settings settings = plain;
    ert_start start = {0, 7, 0, 0, 1};
    ert_timer timer;
    ert_turned turned;
    ert_mail mail;
    uint64_t dropped = 9;
    uint64_t left;
    uint32_t first;
    IS(ert_world_drop_mail(&w, 1, &dropped), ERT_CLOSED);
    IS(dropped, 0);
    settings.slots = 8;
    IS(ert_world_open(&w, &settings), ERT_OK);
    IS(ert_world_start(&w, 0, &start, &timer), ERT_OK);
    IS(ert_world_start(&w, 0, &start, &timer), ERT_OK);
    start.dest = 2;
    IS(ert_world_start(&w, 0, &start, &timer), ERT_OK);
    start.dest = 1;
    start.when = 1000;
    IS(ert_world_start(&w, 0, &start, &timer), ERT_OK);
    tick(&w, 10);
    IS(ert_world_turn(&w, 0, &turned), ERT_OK);
    IS(turned.put, 3);
    IS(ert_world_drop_mail(&w, 1, &dropped), ERT_OK);
    IS(dropped, 2);
    IS(ert_world_take(&w, 1, &mail), ERT_EMPTY);
    IS(ert_world_drop_mail(&w, 1, &dropped), ERT_OK);
    IS(dropped, 0);
    IS(ert_world_read(&w, &timer, &left), ERT_OK);
    IS(ert_world_exit(&w, 2, &first), ERT_OK);
    dropped = 9;
    IS(ert_world_drop_mail(&w, 2, &dropped), ERT_EXITED);
    IS(dropped, 0);
    IS(ert_world_mail_count(&w, 2, &dropped), ERT_OK);
    IS(dropped, 1);
    IS(ert_world_drop_mail(&w, 3, &dropped), ERT_RANGE);
    IS(dropped, 0);
    IS(ert_world_close(&w), ERT_OK);
}

int main(void) {
    header_alone();
    drop_mail();
    closed_handles();
    bad_settings();
    open_twice();
    clock_calls();
    wide_offset();
    timer_calls();
    request_calls();
    process_calls();
    monitor_calls();
    few_looks();
    seat_calls();
    if (failed != 0) {
        return EXIT_FAILURE;
    }
    puts("every call answered as it must");
    return EXIT_SUCCESS;
}
