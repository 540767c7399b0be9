/* Each call of a hub and of shards with its answers, bad input included. What is expected stands in ertime.h. */
#include <inttypes.h>
#include <stdio.h>
#include <stdlib.h>

#include "ertime.h"

#define MILLISECOND INT64_C(1000000)

static int failed;

static void expect(int line, const char *what, int64_t got, int64_t wanted) {
    if (got != wanted) {
        fprintf(stderr, "line %d: %s is %" PRId64 ", not %" PRId64 "\n", line, what, got, wanted);
        failed += 1;
    }
}

#define IS(got, wanted) expect(__LINE__, #got, (int64_t)(got), (int64_t)(wanted))

/* Two shards can be cut, that of scheduler 1 first, and there is a caller for one seat. */
static const ert_settings plain = {
    .size = sizeof(ert_settings),
    .mode = ERT_SINGLE_WARP,
    .correction = 1,
    .schedulers = 2,
    .processes = 5,
    .slots = 2,
    .callers = 4,
    .looks = 64,
    .start = 0,
    .first = {1000 * MILLISECOND, 5000 * MILLISECOND},
};

static void tick(ert_hub *hub, int64_t milliseconds) {
    ert_reading reading = {(1000 + milliseconds) * MILLISECOND, (5000 + milliseconds) * MILLISECOND};
    ert_moved moved;
    IS(ert_hub_tick(hub, &reading, 0, &moved), ERT_OK);
    IS(moved.now, milliseconds * MILLISECOND);
}

static void closed_handles(void) {
    ert_hub h = ERT_INIT;
    ert_shard s = ERT_INIT;
    ert_reading reading = {0, 0};
    ert_moved moved = {7, 7, 7};
    ert_offset offset = {7, 7};
    ert_start start = {0, 0, 0, 0, 0};
    ert_timer timer = {7, 7, 7};
    ert_request request = {0, {0, 0, 0}, 9, 1};
    ert_mail mail;
    ert_advanced advanced;
    ert_delivered delivered;
    ert_turned turned;
    ert_turned_some some;
    int64_t time = 7;
    uint64_t left = 7;
    uint32_t n = 7;
    uint32_t m = 7;
    size_t taken = 7;
    ert_seat seat = ERT_INIT;
    IS(ert_hub_shard(&h, &s, 0), ERT_CLOSED);
    IS(ert_hub_seat(&h, &seat), ERT_CLOSED);
    IS(ert_seat_close(&seat), ERT_CLOSED);
    IS(ert_hub_tick(&h, &reading, 0, &moved), ERT_CLOSED);
    IS(ert_hub_finalize(&h, &reading, &n, &moved), ERT_CLOSED);
    IS(ert_hub_monotonic_time(&h, &time), ERT_CLOSED);
    IS(ert_hub_system_time(&h, &time), ERT_CLOSED);
    IS(ert_hub_time_offset(&h, &offset), ERT_CLOSED);
    IS(ert_hub_cancel(&h, &timer, &left), ERT_CLOSED);
    IS(ert_hub_read(&h, &timer, &left), ERT_CLOSED);
    IS(ert_hub_close(&h), ERT_CLOSED);
    IS(ert_shard_processes(&s, &n, &m), ERT_CLOSED);
    IS(ert_shard_monotonic_time(&s, &time), ERT_CLOSED);
    IS(ert_shard_system_time(&s, &time), ERT_CLOSED);
    IS(ert_shard_time_offset(&s, &offset), ERT_CLOSED);
    IS(ert_shard_start(&s, &start, &timer), ERT_CLOSED);
    IS(ert_shard_restart(&s, &timer, &start), ERT_CLOSED);
    IS(ert_shard_cancel(&s, &timer, &left), ERT_CLOSED);
    IS(ert_shard_read(&s, &timer, &left), ERT_CLOSED);
    IS(ert_shard_held(&s, &left), ERT_CLOSED);
    IS(ert_shard_expired(&s, &left), ERT_CLOSED);
    IS(ert_shard_mail_count(&s, 9, &left), ERT_CLOSED);
    IS(ert_shard_is_alive(&s, 9, &n), ERT_CLOSED);
    IS(ert_shard_exit(&s, 9, &n), ERT_CLOSED);
    IS(ert_shard_take(&s, 9, &mail), ERT_CLOSED);
    IS(ert_shard_take_some(&s, 9, &mail, 1, &taken), ERT_CLOSED);
    IS(ert_shard_next_mail(&s, &n), ERT_CLOSED);
    IS(ert_shard_reserve_mail(&s, 9, 1), ERT_CLOSED);
    IS(ert_shard_shrink_mail(&s, 9), ERT_CLOSED);
    IS(ert_shard_reserve_expired(&s, 1), ERT_CLOSED);
    IS(ert_shard_shrink_expired(&s), ERT_CLOSED);
    IS(ert_shard_ask(&s, &request), ERT_CLOSED);
    IS(ert_shard_serve(&s, &n), ERT_CLOSED);
    IS(ert_shard_monitor(&s, 9, &n), ERT_CLOSED);
    IS(ert_shard_demonitor(&s, 9, 0), ERT_CLOSED);
    IS(ert_shard_notify(&s, 9, &n), ERT_CLOSED);
    IS(ert_shard_advance(&s, &advanced), ERT_CLOSED);
    IS(ert_shard_deliver(&s, &delivered), ERT_CLOSED);
    IS(ert_shard_turn(&s, &turned), ERT_CLOSED);
    IS(ert_shard_turn_some(&s, 1, &some), ERT_CLOSED);
    IS(ert_shard_next_due(&s, &left), ERT_CLOSED);
    IS(ert_shard_drop_settled(&s, &left), ERT_CLOSED);
    IS(ert_shard_close(&s), ERT_CLOSED);
    IS(time, 7);
    IS(left, 7);
    IS(n, 7);
    IS(m, 7);
    IS(taken, 7);
    IS(moved.now, 7);
    IS(offset.offset, 7);
    IS(timer.slot, 7);
}

static void refuse(ert_settings settings, int32_t status) {
    ert_hub h = ERT_INIT;
    IS(ert_hub_open(&h, &settings), status);
    IS(ert_hub_close(&h), ERT_CLOSED);
}

static void bad_settings(void) {
    ert_settings s;
    s = plain, s.size = 8, refuse(s, ERT_BAD_SIZE);
    s = plain, s.mode = 3, refuse(s, ERT_BAD_MODE);
    s = plain, s.first.mono = -1, refuse(s, ERT_BAD_READING);
    s = plain, s.slots = 0, refuse(s, ERT_BAD_COUNT);
    s = plain, s.callers = 2, refuse(s, ERT_BAD_COUNT);
}

/* A hub with two shards: `high` has processes 3 and 4, and `low` has 1 and 2. */
typedef struct {
    ert_hub hub;
    ert_shard high, low;
} divided;

static void open_divided(divided *d) {
    uint32_t from, to;
    ert_shard third = ERT_INIT;
    divided closed = {ERT_INIT, ERT_INIT, ERT_INIT};
    *d = closed;
    IS(ert_hub_open(&d->hub, &plain), ERT_OK);
    IS(ert_hub_open(&d->hub, &plain), ERT_OPEN);
    IS(ert_hub_shard(&d->hub, &d->high, 6), ERT_RANGE);
    IS(ert_hub_shard(&d->hub, &d->high, 2), ERT_OK);
    IS(ert_hub_shard(&d->hub, &d->high, 2), ERT_OPEN);
    IS(ert_hub_shard(&d->hub, &d->low, 4), ERT_RANGE);
    IS(ert_hub_shard(&d->hub, &d->low, 2), ERT_OK);
    IS(ert_hub_shard(&d->hub, &third, 1), ERT_NO_SHARD);
    IS(ert_shard_close(&third), ERT_CLOSED);
    IS(ert_shard_processes(&d->high, &from, &to), ERT_OK);
    IS(from, 3);
    IS(to, 5);
    IS(ert_shard_processes(&d->low, &from, &to), ERT_OK);
    IS(from, 1);
    IS(to, 3);
}

static void close_divided(divided *d) {
    IS(ert_shard_close(&d->low), ERT_OK);
    IS(ert_hub_close(&d->hub), ERT_OK);
    IS(ert_shard_close(&d->high), ERT_OK);
    IS(ert_shard_close(&d->high), ERT_CLOSED);
}

static ert_timer start(ert_shard *s, int64_t when, uint32_t dest, uint64_t msg) {
    ert_start how = {.when = when, .msg = msg, .dest = dest};
    ert_timer timer = {9, 9, 9};
    IS(ert_shard_start(s, &how, &timer), ERT_OK);
    return timer;
}

/* A seat of the hub reads and cancels what a shard started. There is one, and a caller is given out once. */
static void seat_of_a_hub(void) {
    divided d;
    ert_seat seat = ERT_INIT;
    ert_seat other = ERT_INIT;
    uint64_t left = 7;
    int64_t time = 7;
    open_divided(&d);
    IS(ert_hub_seat(&d.hub, &seat), ERT_OK);
    IS(ert_hub_seat(&d.hub, &seat), ERT_OPEN);
    IS(ert_hub_seat(&d.hub, &other), ERT_NO_SEAT);
    IS(ert_seat_close(&other), ERT_CLOSED);
    ert_timer timer = start(&d.high, 40, 3, 1);
    tick(&d.hub, 15);
    IS(ert_seat_monotonic_time(&seat, &time), ERT_OK);
    IS(time, 15 * MILLISECOND);
    IS(ert_seat_read(&seat, &timer, &left), ERT_OK);
    IS(left, 25);
    IS(ert_seat_cancel(&seat, &timer, &left), ERT_OK);
    IS(left, 25);
    IS(ert_shard_cancel(&d.high, &timer, &left), ERT_NO_TIMER);
    close_divided(&d);
    IS(ert_seat_monotonic_time(&seat, &time), ERT_OK);
    IS(ert_seat_close(&seat), ERT_OK);
}

static void clock_of_all(void) {
    divided d;
    open_divided(&d);
    tick(&d.hub, 20);
    int64_t time;
    ert_offset offset;
    IS(ert_shard_monotonic_time(&d.low, &time), ERT_OK);
    IS(time, 20 * MILLISECOND);
    IS(ert_hub_monotonic_time(&d.hub, &time), ERT_OK);
    IS(time, 20 * MILLISECOND);
    IS(ert_shard_time_offset(&d.high, &offset), ERT_OK);
    IS(offset.offset, 5000 * MILLISECOND);
    IS(offset.state, ERT_PRELIMINARY);
    uint32_t before = 7;
    ert_moved moved;
    ert_reading later = {1030 * MILLISECOND, 9030 * MILLISECOND};
    IS(ert_hub_finalize(&d.hub, &later, &before, &moved), ERT_OK);
    IS(before, ERT_PRELIMINARY);
    IS(moved.shifted, 1);
    IS(ert_hub_time_offset(&d.hub, &offset), ERT_OK);
    IS(offset.offset, 9000 * MILLISECOND);
    IS(offset.state, ERT_FINAL);
    IS(ert_shard_system_time(&d.low, &time), ERT_OK);
    IS(time, 9030 * MILLISECOND);
    IS(ert_hub_system_time(&d.hub, &time), ERT_OK);
    IS(time, 9030 * MILLISECOND);
    ert_reading bad = {-1, 0};
    IS(ert_hub_tick(&d.hub, &bad, 0, &moved), ERT_BAD_READING);
    close_divided(&d);
}

static void timers_of_both(void) {
    divided d;
    open_divided(&d);
    ert_start foreign = {.when = 1, .dest = 2};
    ert_start past = {.when = -1, .dest = 3};
    ert_timer none = {9, 9, 9};
    ert_timer timer = none;
    uint64_t left = 7;
    IS(ert_shard_start(&d.high, &foreign, &timer), ERT_RANGE);
    IS(ert_shard_start(&d.high, &past, &timer), ERT_BAD_TIME);
    IS(timer.slot, 9);
    ert_timer first = start(&d.high, 10, 3, 1);
    ert_timer second = start(&d.high, 20, 4, 2);
    foreign.dest = 4;
    IS(ert_shard_start(&d.high, &foreign, &timer), ERT_FULL);
    IS(first.wheel, 1);
    /* Any handle reads and cancels it, and one ends it. */
    IS(ert_shard_read(&d.low, &first, &left), ERT_OK);
    IS(left, 10);
    IS(ert_hub_read(&d.hub, &second, &left), ERT_OK);
    IS(left, 20);
    tick(&d.hub, 4);
    IS(ert_shard_cancel(&d.low, &first, &left), ERT_OK);
    IS(left, 6);
    IS(ert_shard_cancel(&d.high, &first, &left), ERT_NO_TIMER);
    IS(ert_hub_cancel(&d.hub, &first, &left), ERT_NO_TIMER);
    IS(ert_shard_cancel(&d.high, &none, &left), ERT_NO_TIMER);
    IS(ert_hub_cancel(&d.hub, &second, &left), ERT_OK);
    IS(left, 16);
    IS(ert_shard_read(&d.high, &second, &left), ERT_NO_TIMER);
    IS(left, 16);
    ert_timer third = start(&d.low, 5, 1, 3);
    IS(third.wheel, 0);
    IS(ert_shard_cancel(&d.low, &third, &left), ERT_OK);
    IS(left, 5);
    IS(ert_shard_next_due(&d.low, &left), ERT_EMPTY);
    close_divided(&d);
}

static int64_t is_same(ert_timer a, ert_timer b) {
    return a.wheel == b.wheel && a.slot == b.slot && a.generation == b.generation;
}

static int64_t held(ert_shard *s) {
    uint64_t count = 99;
    IS(ert_shard_held(s, &count), ERT_OK);
    return (int64_t)count;
}

static int64_t expired(ert_shard *s) {
    uint64_t count = 99;
    IS(ert_shard_expired(s, &count), ERT_OK);
    return (int64_t)count;
}

static int64_t mail_count(ert_shard *s, uint32_t process) {
    uint64_t count = 99;
    IS(ert_shard_mail_count(s, process, &count), ERT_OK);
    return (int64_t)count;
}

/* A restart of a timer of the shard's own wheel, of one of another's, and of one that isn't armed; and what is refused. */
static void restarts(void) {
    divided d;
    open_divided(&d);
    ert_start how = {.when = 50, .msg = 3, .dest = 2};
    ert_timer own = start(&d.high, 50, 3, 1);
    ert_timer other = start(&d.high, 60, 4, 2); /* so that the wheel is full, and a restart has its own slot alone */
    ert_timer old = own;
    ert_timer before = other;
    ert_turned turned;
    ert_mail mail;
    uint64_t left = 7;
    tick(&d.hub, 30);
    IS(ert_shard_restart(&d.high, &own, &how), ERT_RANGE);
    how.dest = 5;
    IS(ert_shard_restart(&d.high, &own, &how), ERT_RANGE);
    how.dest = 4;
    how.when = -1;
    IS(ert_shard_restart(&d.high, &own, &how), ERT_BAD_TIME);
    IS(is_same(own, old), 1);
    IS(ert_shard_read(&d.high, &own, &left), ERT_OK);
    IS(left, 20);
    how.when = 50;
    IS(ert_shard_restart(&d.high, &own, &how), ERT_OK);
    IS(own.wheel, 1);
    IS(is_same(own, old), 0);
    IS(ert_shard_read(&d.low, &old, &left), ERT_NO_TIMER);
    IS(ert_shard_read(&d.low, &own, &left), ERT_OK);
    IS(left, 50);
    IS(held(&d.high), 2);
    IS(ert_shard_restart(&d.high, &old, &how), ERT_NO_TIMER);
    /* The timer of another shard ends, and one of this shard is started. */
    how.dest = 1;
    how.when = 40;
    how.msg = 4;
    IS(ert_shard_restart(&d.low, &other, &how), ERT_OK);
    IS(other.wheel, 0);
    IS(held(&d.low), 1);
    IS(held(&d.high), 2); /* the row of the one that ended stays until it would be due */
    IS(ert_shard_read(&d.high, &before, &left), ERT_NO_TIMER);
    tick(&d.hub, 70);
    IS(ert_shard_turn(&d.high, &turned), ERT_OK);
    IS(turned.expired, 0);
    IS(ert_shard_turn(&d.low, &turned), ERT_OK);
    IS(turned.put, 1);
    IS(ert_shard_take(&d.low, 1, &mail), ERT_OK);
    IS(mail.msg, 4);
    IS(is_same(mail.timer, other), 1);
    tick(&d.hub, 80);
    IS(ert_shard_turn(&d.high, &turned), ERT_OK);
    IS(turned.put, 1);
    IS(ert_shard_take(&d.high, 3, &mail), ERT_EMPTY);
    IS(ert_shard_take(&d.high, 4, &mail), ERT_OK);
    IS(mail.msg, 3);
    IS(is_same(mail.timer, own), 1);
    /* Where the wheel is full the timer of another shard stays armed. */
    own = start(&d.high, 9, 3, 5);
    old = own;
    start(&d.low, 9, 1, 6);
    start(&d.low, 9, 2, 7);
    IS(ert_shard_restart(&d.low, &own, &how), ERT_FULL);
    IS(is_same(own, old), 1);
    IS(ert_shard_read(&d.high, &own, &left), ERT_OK);
    IS(left, 9);
    close_divided(&d);
}

static void bounded_turns(void) {
    divided d;
    open_divided(&d);
    ert_turned_some some;
    ert_advanced advanced;
    start(&d.high, 10, 3, 1);
    start(&d.high, 11, 4, 2);
    IS(ert_shard_turn_some(&d.high, 9, &some), ERT_OK);
    IS(some.more, 0);
    tick(&d.hub, 15);
    IS(ert_shard_turn_some(&d.high, 0, &some), ERT_OK);
    IS(some.expired, 0);
    IS(some.more, 1);
    for (uint32_t it = 0; it < 2; it += 1) {
        ert_mail mail;
        IS(ert_shard_turn_some(&d.high, 1, &some), ERT_OK);
        IS(some.to, 15);
        IS(some.served, 0);
        IS(some.expired, 1);
        IS(some.put, 1);
        IS(some.dropped, 0);
        IS(some.more, it == 0);
        IS(ert_shard_take(&d.high, 3 + it, &mail), ERT_OK);
        IS(mail.msg, 1 + it);
    }
    /* One that has expired waits for its turn. */
    start(&d.low, 0, 1, 3);
    start(&d.low, 0, 2, 4);
    IS(ert_shard_advance(&d.low, &advanced), ERT_OK);
    IS(advanced.expired, 2);
    IS(expired(&d.low), 2);
    IS(ert_shard_turn_some(&d.low, 1, &some), ERT_OK);
    IS(some.expired, 0);
    IS(some.put, 1);
    IS(some.more, 1);
    IS(expired(&d.low), 1);
    IS(mail_count(&d.low, 1), 1);
    IS(mail_count(&d.low, 2), 0);
    uint64_t count = 7;
    IS(ert_shard_mail_count(&d.low, 3, &count), ERT_RANGE);
    IS(count, 7);
    IS(ert_shard_turn_some(&d.low, 1, &some), ERT_OK);
    IS(some.put, 1);
    IS(some.more, 0);
    close_divided(&d);
}

static void mail_of_many(void) {
    divided d;
    open_divided(&d);
    ert_mail mails[2];
    ert_turned turned;
    uint32_t process = 7;
    uint32_t first;
    size_t taken = 7;
    IS(ert_shard_next_mail(&d.high, &process), ERT_EMPTY);
    IS(process, 7);
    IS(ert_shard_take_some(&d.high, 2, mails, 2, &taken), ERT_RANGE);
    IS(ert_shard_take_some(&d.high, 5, mails, 2, &taken), ERT_RANGE);
    IS(taken, 7);
    IS(ert_shard_reserve_mail(&d.high, 2, 1), ERT_RANGE);
    IS(ert_shard_reserve_mail(&d.high, 5, 1), ERT_RANGE);
    IS(ert_shard_shrink_mail(&d.high, 2), ERT_RANGE);
    IS(ert_shard_shrink_mail(&d.high, 5), ERT_RANGE);
    IS(ert_shard_reserve_mail(&d.high, 3, 100), ERT_OK);
    IS(ert_shard_reserve_expired(&d.high, 100), ERT_OK);
    IS(ert_shard_take_some(&d.high, 3, mails, 2, &taken), ERT_EMPTY);
    IS(taken, 0);
    start(&d.high, 0, 3, 1);
    start(&d.high, 0, 3, 2);
    start(&d.low, 0, 1, 9);
    IS(ert_shard_turn(&d.high, &turned), ERT_OK);
    IS(turned.put, 2);
    start(&d.high, 0, 4, 3);
    IS(ert_shard_turn(&d.high, &turned), ERT_OK);
    IS(turned.put, 1);
    /* Each has its turn, and the processes of the other shard are not found. */
    IS(ert_shard_next_mail(&d.high, &process), ERT_OK);
    IS(process, 3);
    IS(ert_shard_next_mail(&d.high, &process), ERT_OK);
    IS(process, 4);
    IS(ert_shard_next_mail(&d.high, &process), ERT_OK);
    IS(process, 3);
    IS(ert_shard_take_some(&d.high, 3, mails, 1, &taken), ERT_OK);
    IS(taken, 1);
    IS(mails[0].msg, 1);
    IS(ert_shard_shrink_mail(&d.high, 3), ERT_OK);
    IS(ert_shard_shrink_expired(&d.high), ERT_OK);
    IS(ert_shard_take_some(&d.high, 3, mails, 2, &taken), ERT_EMPTY);
    IS(taken, 1);
    IS(mails[0].msg, 2);
    /* The messages of one that has exited can't be taken, so it isn't found. */
    IS(ert_shard_exit(&d.high, 4, &first), ERT_OK);
    IS(first, 1);
    IS(ert_shard_next_mail(&d.high, &process), ERT_EMPTY);
    IS(ert_shard_take_some(&d.high, 4, mails, 2, &taken), ERT_EXITED);
    IS(taken, 0);
    IS(ert_shard_next_mail(&d.low, &process), ERT_EMPTY);
    IS(ert_shard_turn(&d.low, &turned), ERT_OK);
    IS(ert_shard_next_mail(&d.low, &process), ERT_OK);
    IS(process, 1);
    close_divided(&d);
}

static void requests(void) {
    divided d;
    open_divided(&d);
    ert_request ask = {ERT_CANCEL, start(&d.high, 50, 3, 1), 4, 1};
    ert_timer own = ask.timer;
    ert_timer other = start(&d.low, 60, 1, 2);
    ert_turned turned;
    ert_mail mail;
    uint32_t n = 7;
    uint64_t left = 7;
    IS(ert_shard_serve(&d.high, &n), ERT_OK);
    IS(n, 0);
    ask.kind = 2;
    IS(ert_shard_ask(&d.high, &ask), ERT_BAD_KIND);
    ask.kind = ERT_CANCEL;
    ask.reply_to = 2;
    IS(ert_shard_ask(&d.high, &ask), ERT_RANGE);
    ask.reply_to = 5;
    IS(ert_shard_ask(&d.high, &ask), ERT_RANGE);
    ask.reply_to = 4;
    IS(ert_shard_ask(&d.high, &ask), ERT_OK);
    IS(ert_shard_read(&d.high, &own, &left), ERT_OK);
    IS(ert_shard_serve(&d.high, &n), ERT_OK);
    IS(n, 1);
    IS(ert_shard_read(&d.high, &own, &left), ERT_NO_TIMER);
    IS(held(&d.high), 0);
    IS(ert_shard_next_mail(&d.high, &n), ERT_OK);
    IS(n, 4);
    IS(ert_shard_take(&d.high, 4, &mail), ERT_OK);
    IS(mail.tag, ERT_CANCEL_DONE);
    IS(is_same(mail.timer, own), 1);
    IS(mail.has_left, 1);
    IS(mail.left, 50);
    /* A timer of another shard is read and cancelled in the next turn. */
    ask.kind = ERT_READ;
    ask.timer = other;
    ask.reply_to = 3;
    IS(ert_shard_ask(&d.high, &ask), ERT_OK);
    ask.kind = ERT_CANCEL;
    ask.info = 0;
    IS(ert_shard_ask(&d.high, &ask), ERT_OK);
    IS(ert_shard_turn(&d.high, &turned), ERT_OK);
    IS(turned.served, 2);
    IS(turned.put, 0);
    IS(ert_shard_read(&d.low, &other, &left), ERT_NO_TIMER);
    IS(ert_shard_take(&d.high, 3, &mail), ERT_OK);
    IS(mail.tag, ERT_READ_DONE);
    IS(mail.left, 60);
    IS(ert_shard_take(&d.high, 3, &mail), ERT_EMPTY);
    close_divided(&d);
}

static void turns(void) {
    divided d;
    open_divided(&d);
    ert_timer timer = start(&d.high, 10, 4, 5);
    start(&d.low, 12, 1, 6);
    uint64_t due = 7;
    IS(ert_shard_next_due(&d.high, &due), ERT_OK);
    IS(due, 10);
    ert_turned turned;
    IS(ert_shard_turn(&d.high, &turned), ERT_OK);
    IS(turned.expired, 0);
    tick(&d.hub, 15);
    IS(ert_shard_turn(&d.high, &turned), ERT_OK);
    IS(turned.to, 15);
    IS(turned.served, 0);
    IS(turned.expired, 1);
    IS(turned.put, 1);
    IS(turned.dropped, 0);
    ert_mail mail;
    IS(ert_shard_take(&d.high, 1, &mail), ERT_RANGE);
    IS(ert_shard_take(&d.high, 5, &mail), ERT_RANGE);
    IS(ert_shard_take(&d.high, 3, &mail), ERT_EMPTY);
    IS(ert_shard_take(&d.high, 4, &mail), ERT_OK);
    IS(mail.tag, ERT_TIMEOUT);
    IS(mail.msg, 5);
    IS(mail.timer.wheel, timer.wheel);
    IS(mail.timer.slot, timer.slot);
    IS(mail.timer.generation, timer.generation);
    IS(ert_shard_take(&d.high, 4, &mail), ERT_EMPTY);
    ert_advanced advanced;
    ert_delivered delivered;
    IS(ert_shard_advance(&d.low, &advanced), ERT_OK);
    IS(advanced.to, 15);
    IS(advanced.expired, 1);
    IS(ert_shard_deliver(&d.low, &delivered), ERT_OK);
    IS(delivered.put, 1);
    IS(delivered.dropped, 0);
    IS(ert_shard_take(&d.low, 1, &mail), ERT_OK);
    IS(mail.msg, 6);
    close_divided(&d);
}

static void exits(void) {
    divided d;
    open_divided(&d);
    uint32_t flag = 7;
    ert_mail mail;
    ert_advanced advanced;
    ert_delivered delivered;
    IS(ert_shard_is_alive(&d.low, 5, &flag), ERT_RANGE);
    IS(flag, 7);
    IS(ert_shard_is_alive(&d.low, 4, &flag), ERT_OK);
    IS(flag, 1);
    start(&d.high, 1, 4, 1);
    tick(&d.hub, 2);
    IS(ert_shard_advance(&d.high, &advanced), ERT_OK);
    ert_timer armed = start(&d.high, 1, 4, 2);
    IS(ert_shard_exit(&d.low, 4, &flag), ERT_RANGE);
    IS(ert_shard_exit(&d.high, 4, &flag), ERT_OK);
    IS(flag, 1);
    IS(ert_shard_exit(&d.high, 4, &flag), ERT_OK);
    IS(flag, 0);
    uint64_t left;
    IS(ert_shard_read(&d.low, &armed, &left), ERT_NO_TIMER);
    IS(ert_shard_deliver(&d.high, &delivered), ERT_OK);
    IS(delivered.put, 0);
    IS(delivered.dropped, 1);
    IS(ert_shard_take(&d.high, 4, &mail), ERT_EXITED);
    IS(ert_shard_is_alive(&d.low, 4, &flag), ERT_OK);
    IS(flag, 0);
    close_divided(&d);
}

static void monitors(void) {
    divided d;
    open_divided(&d);
    uint32_t monitor = 7;
    uint32_t told = 7;
    IS(ert_shard_monitor(&d.low, 3, &monitor), ERT_RANGE);
    IS(ert_shard_notify(&d.low, 3, &told), ERT_RANGE);
    IS(ert_shard_demonitor(&d.low, 3, 0), ERT_RANGE);
    IS(ert_shard_monitor(&d.low, 2, &monitor), ERT_OK);
    IS(ert_shard_notify(&d.low, 2, &told), ERT_OK);
    IS(told, 0);
    ert_moved moved;
    uint32_t before;
    ert_reading later = {1030 * MILLISECOND, 9030 * MILLISECOND};
    IS(ert_hub_finalize(&d.hub, &later, &before, &moved), ERT_OK);
    IS(ert_shard_notify(&d.low, 2, &told), ERT_OK);
    IS(told, 1);
    ert_mail mail;
    IS(ert_shard_take(&d.low, 2, &mail), ERT_OK);
    IS(mail.tag, ERT_CHANGE);
    IS(mail.monitor, monitor);
    IS(mail.offset, 9000 * MILLISECOND);
    IS(ert_shard_demonitor(&d.low, 2, monitor), ERT_OK);
    IS(ert_shard_demonitor(&d.low, 2, monitor), ERT_NO_MONITOR);
    close_divided(&d);
}

int main(void) {
    closed_handles();
    bad_settings();
    seat_of_a_hub();
    clock_of_all();
    timers_of_both();
    restarts();
    bounded_turns();
    mail_of_many();
    requests();
    turns();
    exits();
    monitors();
    return failed == 0 ? EXIT_SUCCESS : EXIT_FAILURE;
}
