/* Restarts, counts, turns with a bound, the processes with mail, the room of mailboxes, and cancels of all timers of a
 * process: each answer, and what stays as it was. What is expected stands in ertime.h. */
#include <inttypes.h>
#include <stdio.h>
#include <stdlib.h>

#include "ertime.h"

#define MILLISECOND INT64_C(1000000)
#define TIMERS 10
#define MANY 65536
#define PIECE 256
#define BURST 1000

static int failed;

static void expect(int line, const char *what, int64_t got, int64_t wanted) {
    if (got != wanted) {
        fprintf(stderr, "line %d: %s is %" PRId64 ", not %" PRId64 "\n", line, what, got, wanted);
        failed += 1;
    }
}

#define IS(got, wanted) expect(__LINE__, #got, (int64_t)(got), (int64_t)(wanted))

static void opened(ert_world *world, uint32_t slots) {
    ert_reading first = {1000 * MILLISECOND, 5000 * MILLISECOND};
    ert_settings settings;
    ert_settings_init(&settings, &first);
    settings.slots = slots;
    settings.processes = 2;
    settings.callers = 2;
    IS(ert_world_open(world, &settings), ERT_OK);
}

static void tick(ert_world *world, int64_t milliseconds) {
    ert_reading reading = {(1000 + milliseconds) * MILLISECOND, (5000 + milliseconds) * MILLISECOND};
    ert_moved moved;
    IS(ert_world_tick(world, &reading, 0, &moved), ERT_OK);
}

static uint64_t held(ert_world *world) {
    uint64_t count = 7777;
    IS(ert_world_held(world, 0, &count), ERT_OK);
    return count;
}

static uint64_t expired(ert_world *world) {
    uint64_t count = 7777;
    IS(ert_world_expired(world, 0, &count), ERT_OK);
    return count;
}

static uint64_t in_mailbox(ert_world *world, uint32_t process) {
    uint64_t count = 7777;
    IS(ert_world_mail_count(world, process, &count), ERT_OK);
    return count;
}

static void refusals(void) {
    ert_world world = ERT_INIT;
    ert_timer timer = {7, 7, 7};
    ert_start start = {.when = 50, .msg = 1, .dest = 2};
    ert_turned_some some = {7, 7, 7, 7, 7, 7};
    ert_mail mails[2] = {{.tag = 7}, {.tag = 7}};
    uint64_t count = 7;
    size_t taken = 7;
    uint32_t process = 7;
    IS(ert_world_restart(&world, &timer, &start), ERT_CLOSED);
    IS(ert_world_held(&world, 0, &count), ERT_CLOSED);
    IS(ert_world_expired(&world, 0, &count), ERT_CLOSED);
    IS(ert_world_mail_count(&world, 0, &count), ERT_CLOSED);
    IS(ert_world_turn_some(&world, 0, 1, &some), ERT_CLOSED);
    IS(ert_world_take_some(&world, 0, mails, 2, &taken), ERT_CLOSED);
    IS(ert_world_next_mail(&world, &process), ERT_CLOSED);
    IS(ert_world_reserve_mail(&world, 0, 1), ERT_CLOSED);
    IS(ert_world_shrink_mail(&world, 0), ERT_CLOSED);
    IS(ert_world_reserve_expired(&world, 0, 1), ERT_CLOSED);
    IS(ert_world_shrink_expired(&world, 0), ERT_CLOSED);
    IS(ert_world_drop_settled(&world, 0, &count), ERT_CLOSED);
    IS(ert_world_cancel_all(&world, 0, &count), ERT_CLOSED);
    opened(&world, 1);
    IS(ert_world_restart(&world, &timer, &start), ERT_RANGE);
    IS(ert_world_held(&world, 1, &count), ERT_RANGE);
    IS(ert_world_expired(&world, 1, &count), ERT_RANGE);
    IS(ert_world_mail_count(&world, 2, &count), ERT_RANGE);
    IS(ert_world_turn_some(&world, 1, 1, &some), ERT_RANGE);
    IS(ert_world_take_some(&world, 2, mails, 2, &taken), ERT_RANGE);
    IS(ert_world_reserve_mail(&world, 2, 1), ERT_RANGE);
    IS(ert_world_shrink_mail(&world, 2), ERT_RANGE);
    IS(ert_world_reserve_expired(&world, 1, 1), ERT_RANGE);
    IS(ert_world_shrink_expired(&world, 1), ERT_RANGE);
    IS(ert_world_drop_settled(&world, 1, &count), ERT_RANGE);
    IS(ert_world_cancel_all(&world, 2, &count), ERT_RANGE);
    IS(ert_world_next_mail(&world, &process), ERT_EMPTY);
    IS(process, 7);
    IS(taken, 7);
    IS(mails[0].tag, 7);
    start.dest = 1;
    IS(ert_world_restart(&world, &timer, &start), ERT_NO_TIMER);
    IS(timer.slot, 7);
    IS(count, 7);
    IS(some.more, 7);
    IS(ert_world_close(&world), ERT_OK);
}

static void restarts(void) {
    ert_world world = ERT_INIT;
    ert_timer timer, old;
    ert_start start = {.when = 50, .msg = 1, .dest = 0};
    ert_turned turned;
    ert_mail mail;
    uint64_t left = 7;
    opened(&world, 1); /* so that the second start can have the slot of the first alone */
    IS(ert_world_start(&world, 0, &start, &timer), ERT_OK);
    old = timer;
    tick(&world, 30);
    start.when = -1;
    IS(ert_world_restart(&world, &timer, &start), ERT_BAD_TIME);
    IS(ert_world_read(&world, &timer, &left), ERT_OK);
    IS(left, 20);
    start.when = 50;
    start.msg = 2;
    start.dest = 1;
    IS(ert_world_restart(&world, &timer, &start), ERT_OK);
    IS(timer.wheel == old.wheel && timer.generation == old.generation && timer.slot == old.slot, 0);
    IS(ert_world_read(&world, &old, &left), ERT_NO_TIMER);
    IS(ert_world_read(&world, &timer, &left), ERT_OK);
    IS(left, 50);
    IS(held(&world), 1);
    tick(&world, 79);
    IS(ert_world_turn(&world, 0, &turned), ERT_OK);
    IS(turned.expired, 0);
    tick(&world, 80);
    IS(ert_world_turn(&world, 0, &turned), ERT_OK);
    IS(turned.put, 1);
    IS(ert_world_take(&world, 0, &mail), ERT_EMPTY);
    IS(ert_world_take(&world, 1, &mail), ERT_OK);
    IS(mail.msg, 2);
    IS(mail.timer.generation, timer.generation);
    old = timer;
    IS(ert_world_restart(&world, &timer, &start), ERT_NO_TIMER);
    IS(timer.generation, old.generation);
    IS(held(&world), 0);
    IS(ert_world_close(&world), ERT_OK);
}

static void bounded_turns(void) {
    ert_world world = ERT_INIT;
    ert_timer timers[TIMERS];
    ert_turned_some some;
    ert_advanced advanced;
    ert_mail mail;
    uint64_t left;
    opened(&world, TIMERS);
    for (uint32_t it = 0; it < TIMERS; it += 1) {
        ert_start start = {.when = 5, .msg = it, .dest = 0};
        IS(ert_world_start(&world, 0, &start, &timers[it]), ERT_OK);
        IS(held(&world), it + 1);
    }
    IS(ert_world_cancel(&world, &timers[0], &left), ERT_OK);
    IS(held(&world), TIMERS - 1);
    tick(&world, 5);
    IS(ert_world_turn_some(&world, 0, 0, &some), ERT_OK);
    IS(some.to, 5);
    IS(some.expired, 0);
    IS(some.put, 0);
    IS(some.more, 1);
    for (uint32_t done = 0; done < TIMERS - 1; done += 3) {
        IS(held(&world), TIMERS - 1 - done);
        IS(in_mailbox(&world, 0), done);
        IS(ert_world_turn_some(&world, 0, 3, &some), ERT_OK);
        IS(expired(&world), 0);
        IS(some.expired, 3);
        IS(some.put, 3);
        IS(some.dropped, 0);
        IS(some.more, done + 3 < TIMERS - 1);
    }
    IS(ert_world_turn_some(&world, 0, 3, &some), ERT_OK);
    IS(some.put, 0);
    IS(some.more, 0);
    for (uint32_t it = 1; it < TIMERS; it += 1) {
        IS(ert_world_take(&world, 0, &mail), ERT_OK);
        IS(mail.msg, it);
        IS(in_mailbox(&world, 0), TIMERS - 1 - it);
    }
    IS(in_mailbox(&world, 1), 0);
    IS(ert_world_advance(&world, 0, &advanced), ERT_OK);
    IS(expired(&world), 0);
    IS(ert_world_close(&world), ERT_OK);
}

/* After a leap of time very many timers are handed over in pieces, in order, each once. Time comes to the leap's end in pieces
 * too: a timer moves four times at most, so many calls at most tell that there is more. */
static void after_a_leap(int64_t first, int64_t spread, int64_t end, uint32_t due) {
    ert_world world = ERT_INIT;
    ert_timer timer;
    ert_turned_some some;
    ert_mail mail;
    uint32_t calls = 0, done = 0;
    uint64_t last = 0;
    opened(&world, MANY);
    for (uint32_t it = 0; it < MANY; it += 1) {
        int64_t deadline = first + (spread * it + MANY - 1) / MANY;
        ert_start start = {.when = deadline, .msg = it, .dest = 0};
        if (ert_world_start(&world, 0, &start, &timer) != ERT_OK) {
            IS(it, MANY);
            break;
        }
    }
    tick(&world, end);
    IS(ert_world_turn_some(&world, 0, 0, &some), ERT_OK);
    IS(some.to, end);
    IS(some.more, 1);
    do {
        IS(ert_world_turn_some(&world, 0, PIECE, &some), ERT_OK);
        IS(some.to, end);
        IS(some.expired, some.put);
        IS(some.put <= PIECE, 1);
        for (uint32_t it = 0; it < some.put; it += 1) {
            IS(ert_world_take(&world, 0, &mail), ERT_OK);
            IS(mail.msg >= last, 1);
            last = mail.msg + 1;
        }
        done += some.put;
        calls += 1;
        IS(held(&world), MANY - done);
    } while (some.more != 0 && calls < 5 * MANY / PIECE + 5);
    IS(some.more, 0);
    IS(done, due);
    IS(ert_world_turn_some(&world, 0, PIECE, &some), ERT_OK);
    IS(some.expired, 0);
    IS(some.more, 0);
    IS(ert_world_close(&world), ERT_OK);
}

static void many_at_once(void) {
    static const struct {
        int64_t first, spread, end;
        uint32_t due;
    } leaps[] = {
        {300, 0, 300, MANY},                       /* within the window of the time */
        {5000, 0, 5000, MANY},                     /* in another of 512 milliseconds */
        {5000, 500000, 4999, 0},                   /* before all: some are in the window that begins */
        {3600000, 0, 3600000, MANY},               /* an hour */
        {3600000, 60000, 3630000, MANY / 2 + 1},   /* so that half are left */
        {3600000, 60000, 3600000, 1},              /* and all but one */
        {200000000, 400000000, 500000000, MANY / 4 * 3 + 1}, /* days */
    };
    for (size_t it = 0; it < sizeof leaps / sizeof leaps[0]; it += 1) {
        after_a_leap(leaps[it].first, leaps[it].spread, leaps[it].end, leaps[it].due);
    }
}

/* Timers that were restarted to one deadline, in another order than that of their starts, are handed over in pieces in the order of the
 * restarts. Between the pieces some are cancelled, and others are started that are due by then. */
static void restarted_to_one_deadline(uint32_t step, uint32_t beside) {
    enum { DEADLINE = 10100, SLOTS = MANY + MANY / 2 };
    static ert_timer timers[SLOTS];
    ert_world world = ERT_INIT;
    ert_turned turned;
    ert_turned_some some;
    ert_mail mail;
    uint64_t left, last = 0;
    uint32_t calls = 0, done = 0, gone = 0, rank = 0, drawn = 1;
    opened(&world, SLOTS);
    for (uint32_t it = 0; it < MANY; it += 1) {
        ert_start start = {.when = DEADLINE - 50, .dest = 0};
        IS(ert_world_start(&world, 0, &start, &timers[it]), ERT_OK);
    }
    tick(&world, 100);
    IS(ert_world_turn(&world, 0, &turned), ERT_OK);
    for (uint32_t it = 0; it < MANY; it += 1) {
        ert_start start = {.when = DEADLINE, .absolute = 1, .msg = rank, .dest = 0};
        IS(ert_world_restart(&world, &timers[it * step % MANY], &start), ERT_OK);
        rank += 1;
    }
    tick(&world, DEADLINE);
    do {
        IS(ert_world_turn_some(&world, 0, PIECE, &some), ERT_OK);
        IS(some.put <= PIECE, 1);
        for (uint32_t it = 0; it < some.put; it += 1) {
            IS(ert_world_take(&world, 0, &mail), ERT_OK);
            IS(mail.msg >= last, 1);
            last = mail.msg + 1;
        }
        done += some.put;
        calls += 1;
        for (uint32_t it = 0; it < beside && rank < SLOTS; it += 1) {
            ert_start start = {.when = DEADLINE, .absolute = 1, .msg = rank, .dest = 0};
            IS(ert_world_start(&world, 0, &start, &timers[rank]), ERT_OK);
            rank += 1;
            drawn = drawn * 1664525 + 1013904223;
            gone += ert_world_cancel(&world, &timers[(drawn >> 8) % MANY], &left) == ERT_OK;
        }
    } while (some.more != 0 && calls < 5 * SLOTS / PIECE);
    IS(ert_world_turn(&world, 0, &turned), ERT_OK);
    IS(some.more, 0);
    IS(done + turned.put + gone, rank);
    IS(ert_world_close(&world), ERT_OK);
}

/* Timers whose deadlines had passed when they were started, and others in windows of their own, come in order of deadline,
 * and those of one deadline in order of start. */
static void late_ones_in_order(void) {
    static const int64_t deadlines[] = {9, 3, 600, 7, 3, 10, 300000, 512, 11};
    static const uint64_t order[] = {1, 4, 3, 0, 5, 8, 7, 2, 6};
    enum { COUNT = sizeof order / sizeof order[0] };
    ert_world world = ERT_INIT;
    ert_timer timer;
    ert_turned turned;
    ert_turned_some some;
    ert_mail mail;
    opened(&world, COUNT);
    tick(&world, 10);
    IS(ert_world_turn(&world, 0, &turned), ERT_OK);
    for (uint32_t it = 0; it < COUNT; it += 1) {
        ert_start start = {.when = deadlines[it], .absolute = 1, .msg = it, .dest = 0};
        IS(ert_world_start(&world, 0, &start, &timer), ERT_OK);
    }
    tick(&world, 300000);
    for (uint32_t done = 0; done < COUNT; done += 1) {
        IS(ert_world_turn_some(&world, 0, 1, &some), ERT_OK);
        IS(some.expired, 1);
        IS(some.put, 1);
        IS(some.more, done + 1 < COUNT);
        IS(ert_world_take(&world, 0, &mail), ERT_OK);
        IS(mail.msg, order[done]);
    }
    IS(ert_world_close(&world), ERT_OK);
}

/* So many timers of a process send a message when the clock has gone on by five milliseconds. */
static void send(ert_world *world, uint32_t process, uint32_t count, int64_t until) {
    ert_timer timer;
    ert_turned turned;
    for (uint32_t it = 0; it < count; it += 1) {
        ert_start start = {.when = 0, .msg = 100 * (process + 1) + it, .dest = process};
        IS(ert_world_start(world, 0, &start, &timer), ERT_OK);
    }
    tick(world, until);
    IS(ert_world_turn(world, 0, &turned), ERT_OK);
    IS(turned.put, count);
}

static uint32_t with_mail(ert_world *world) {
    uint32_t process = 7777;
    IS(ert_world_next_mail(world, &process), ERT_OK);
    return process;
}

static void mail_is_found(void) {
    ert_world world = ERT_INIT;
    ert_mail mails[TIMERS], none[1] = {{.tag = 7}};
    size_t taken = 7;
    uint32_t process = 7, first;
    opened(&world, TIMERS);
    send(&world, 1, 3, 1);
    IS(with_mail(&world), 1); /* mail that came before the first such call is found */
    IS(with_mail(&world), 1);
    IS(ert_world_take_some(&world, 1, none, 0, &taken), ERT_OK);
    IS(taken, 0);
    IS(none[0].tag, 7);
    IS(ert_world_take_some(&world, 1, mails, 2, &taken), ERT_OK);
    IS(taken, 2);
    IS(mails[0].msg, 200);
    IS(mails[1].msg, 201);
    IS(with_mail(&world), 1);
    mails[1].tag = 7;
    IS(ert_world_take_some(&world, 1, mails, 2, &taken), ERT_EMPTY);
    IS(taken, 1);
    IS(mails[0].msg, 202);
    IS(mails[1].tag, 7);
    IS(ert_world_next_mail(&world, &process), ERT_EMPTY);
    IS(process, 7);
    IS(ert_world_take_some(&world, 1, mails, 2, &taken), ERT_EMPTY);
    IS(taken, 0);
    send(&world, 1, 1, 2); /* and so is mail that comes later, each in its turn */
    send(&world, 0, 2, 3);
    first = with_mail(&world);
    IS(with_mail(&world), 1 - first);
    IS(with_mail(&world), first);
    IS(ert_world_take_some(&world, 0, mails, TIMERS, &taken), ERT_EMPTY);
    IS(taken, 2);
    IS(with_mail(&world), 1);
    IS(ert_world_exit(&world, 1, &process), ERT_OK);
    IS(ert_world_take_some(&world, 1, mails, TIMERS, &taken), ERT_EXITED);
    IS(taken, 0);
    IS(in_mailbox(&world, 1), 1);
    process = 7;
    IS(ert_world_next_mail(&world, &process), ERT_EMPTY); /* its message can't be taken, so it isn't found */
    IS(process, 7);
    IS(ert_world_close(&world), ERT_OK);
}

/* Room that is made and given back changes no answer: of two services that make the same calls one also makes these. */
static void room_changes_nothing(void) {
    static ert_mail mails[2][BURST + TIMERS + 1];
    ert_world worlds[2] = {ERT_INIT, ERT_INIT};
    size_t taken[2];
    for (int it = 0; it < 2; it += 1) {
        ert_world *world = &worlds[it];
        opened(world, BURST);
        if (it == 1) {
            IS(ert_world_reserve_mail(world, 1, BURST), ERT_OK);
            IS(ert_world_reserve_mail(world, 1, SIZE_MAX), ERT_NO_MEMORY);
            IS(ert_world_reserve_mail(world, 1, 0), ERT_OK);
            IS(ert_world_reserve_expired(world, 0, BURST), ERT_OK);
            IS(ert_world_reserve_expired(world, 0, SIZE_MAX), ERT_NO_MEMORY);
            IS(ert_world_reserve_expired(world, 0, 0), ERT_OK);
        }
        send(world, 1, BURST, 1);
        IS(in_mailbox(world, 1), BURST);
        IS(ert_world_take_some(world, 1, mails[it], BURST - TIMERS, &taken[it]), ERT_OK);
        if (it == 1) {
            IS(ert_world_shrink_mail(world, 1), ERT_OK);
            IS(ert_world_shrink_mail(world, 0), ERT_OK);
            IS(ert_world_shrink_expired(world, 0), ERT_OK);
        }
        IS(in_mailbox(world, 1), TIMERS);
        send(world, 1, TIMERS, 2);
        if (it == 1) {
            IS(ert_world_reserve_mail(world, 1, BURST), ERT_OK);
            IS(ert_world_shrink_mail(world, 1), ERT_OK);
        }
        IS(with_mail(world), 1);
        IS(ert_world_take_some(world, 1, mails[it] + BURST - TIMERS, 2 * TIMERS + 1, &taken[it]), ERT_EMPTY);
        IS(taken[it], 2 * TIMERS);
        if (it == 1) {
            IS(ert_world_shrink_mail(world, 1), ERT_OK);
        }
        IS(in_mailbox(world, 1), 0);
        IS(ert_world_close(world), ERT_OK);
    }
    for (size_t it = 0; it < BURST + TIMERS; it += 1) {
        IS(mails[1][it].tag, ERT_TIMEOUT);
        IS(mails[1][it].msg, 200 + it % BURST);
        IS(mails[0][it].msg, mails[1][it].msg);
        IS(mails[1][it].timer.slot, mails[0][it].timer.slot);
        IS(mails[1][it].timer.generation, mails[0][it].timer.generation);
    }
}

/* A loop that takes until no process is found ends, also where a process exits in it with messages in its mailbox. */
static void loop_ends(void) {
    ert_world world = ERT_INIT;
    ert_mail mail;
    uint32_t process, cancelled;
    int rounds = 0, exited = 0;
    opened(&world, TIMERS);
    send(&world, 0, 3, 1);
    send(&world, 1, 3, 2);
    while (rounds < 20 && ert_world_next_mail(&world, &process) == ERT_OK) {
        IS(ert_world_take(&world, process, &mail), ERT_OK); /* who is found is alive and has a message */
        if (mail.msg == 201) {
            IS(ert_world_exit(&world, 1, &cancelled), ERT_OK);
            exited += 1;
        }
        rounds += 1;
    }
    IS(exited, 1);
    IS(rounds, 5); /* three messages of the one, and two of the other */
    IS(in_mailbox(&world, 1), 1);
    IS(ert_world_close(&world), ERT_OK);
}

static void all_are_cancelled(void) {
    ert_world world = ERT_INIT;
    ert_seat seat = ERT_INIT;
    ert_timer timers[TIMERS];
    ert_turned turned;
    ert_mail mail;
    uint64_t left, cancelled = 7;
    opened(&world, TIMERS);
    IS(ert_world_cancel_all(&world, 0, &cancelled), ERT_OK);
    IS(cancelled, 0);
    for (uint32_t it = 0; it < TIMERS; it += 1) {
        ert_start start = {.when = it == 0 ? 0 : 5, .msg = it, .dest = it % 2};
        IS(ert_world_start(&world, 0, &start, &timers[it]), ERT_OK);
    }
    tick(&world, 1);
    IS(ert_world_turn(&world, 0, &turned), ERT_OK);
    IS(turned.put, 1);
    IS(ert_seat_open(&seat, &world), ERT_OK);
    IS(ert_seat_cancel(&seat, &timers[2], &left), ERT_OK);
    IS(ert_world_cancel_all(&world, 0, &cancelled), ERT_OK); /* of its five one has expired, and a seat cancelled one */
    IS(cancelled, TIMERS / 2 - 2);
    IS(held(&world), TIMERS / 2);
    for (uint32_t it = 0; it < TIMERS; it += 1) {
        IS(ert_world_read(&world, &timers[it], &left), it % 2 == 0 ? ERT_NO_TIMER : ERT_OK);
    }
    IS(ert_world_cancel_all(&world, 0, &cancelled), ERT_OK);
    IS(cancelled, 0);
    IS(ert_world_take(&world, 0, &mail), ERT_OK); /* what had come before stays, and the process lives on */
    IS(mail.msg, 0);
    send(&world, 0, 2, 2);
    IS(ert_world_cancel_all(&world, 1, &cancelled), ERT_OK);
    IS(cancelled, TIMERS / 2);
    IS(held(&world), 0);
    IS(ert_seat_close(&seat), ERT_OK);
    IS(ert_world_close(&world), ERT_OK);
}

/* A timer that a seat cancelled is held until it would have been due. */
static void beside_a_seat(void) {
    ert_world world = ERT_INIT;
    ert_seat seat = ERT_INIT;
    ert_timer timer;
    ert_start start = {.when = 5, .msg = 1, .dest = 0};
    ert_turned turned;
    uint64_t left;
    opened(&world, 2);
    IS(ert_world_start(&world, 0, &start, &timer), ERT_OK);
    IS(ert_seat_open(&seat, &world), ERT_OK);
    IS(ert_seat_cancel(&seat, &timer, &left), ERT_OK);
    IS(held(&world), 1);
    IS(ert_world_restart(&world, &timer, &start), ERT_NO_TIMER);
    tick(&world, 5);
    IS(ert_world_turn(&world, 0, &turned), ERT_OK);
    IS(turned.expired, 0);
    IS(held(&world), 0);
    IS(ert_seat_close(&seat), ERT_OK);
    IS(ert_world_close(&world), ERT_OK);
}

int main(void) {
    IS(ert_version(), ERTIME_VERSION);
    refusals();
    restarts();
    bounded_turns();
    many_at_once();
    restarted_to_one_deadline(MANY - 1, 0);  /* from the last to the first */
    restarted_to_one_deadline(40503, 0);     /* in no order */
    restarted_to_one_deadline(40503, 30);
    late_ones_in_order();
    beside_a_seat();
    mail_is_found();
    room_changes_nothing();
    loop_ends();
    all_are_cancelled();
    if (failed != 0) {
        return EXIT_FAILURE;
    }
    puts("restarts, counts, turns with a bound, mail that is found, its room and cancels of all are as they must be");
    return EXIT_SUCCESS;
}
