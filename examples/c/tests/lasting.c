/*
 * Slots that are used again and again: millions of timers in a few slots, with names of timers that are long gone
 * and names that never were one. What is expected stands in ertime.h; which generation comes next, and when a slot
 * rests, in docs/MODEL.md.
 */
#include <inttypes.h>
#include <stdio.h>
#include <stdlib.h>

#include "ertime.h"

#define MILLISECOND INT64_C(1000000)

enum { USES_OF_ROUND = 262143, MOST_SLOTS = 4, OLD_NAMES = 4096 };

static const uint64_t LATER = UINT64_C(1) << 43; /* the least generation of a later round */

static void expect(int line, const char *what, int64_t got, int64_t wanted) {
    if (got != wanted) {
        fprintf(stderr, "line %d: %s is %" PRId64 ", not %" PRId64 "\n", line, what, got, wanted);
        exit(EXIT_FAILURE);
    }
}

#define IS(got, wanted) expect(__LINE__, #got, (int64_t)(got), (int64_t)(wanted))

/* A number below a bound, the same in every run. */
static uint64_t below(uint64_t bound) {
    static uint64_t state = 1;
    state = state * UINT64_C(6364136223846793005) + UINT64_C(1442695040888963407);
    return (state >> 33) % bound;
}

/* What the model says of a slot. Times are in milliseconds after the start time. */
typedef struct {
    uint64_t last;  /* the last generation, 0 before the first use */
    uint64_t since; /* from when on the round may have timers: 0 in the first */
    uint64_t above; /* one above the greatest deadline */
    bool armed;
    uint64_t deadline;
    uint64_t msg;
    uint32_t rounds; /* later rounds that have begun */
} uses;

static ert_world world;
static ert_seat seat;
static uint64_t now;
static uint32_t slots;
static uses of[MOST_SLOTS];
/* Names of timers that aren't armed any more, of all rounds. */
static ert_timer old[OLD_NAMES];
static uint32_t olds;

static uint64_t use_of(uint64_t generation) { return generation < LATER ? generation : generation / LATER; }

static bool rests(const uses *u) { return use_of(u->last) == USES_OF_ROUND && now < u->above; }

static void tick(uint64_t milliseconds) {
    now += milliseconds;
    ert_reading reading = {(int64_t)now * MILLISECOND, (int64_t)now * MILLISECOND};
    ert_moved moved;
    IS(ert_world_tick(&world, &reading, 0, &moved), ERT_OK);
    IS(moved.now, (int64_t)now * MILLISECOND);
}

static void forget(ert_timer timer) {
    of[timer.slot].armed = false;
    /* Those of a few rounds stand there at last: in the beginning each, and then one of many. */
    if (olds < OLD_NAMES / 2 || below(64) == 0) {
        old[olds < OLD_NAMES ? olds++ : below(OLD_NAMES)] = timer;
    }
}

/* A turn, and each timer that was due has its message, by its own name. */
static void turn(void) {
    ert_turned turned;
    ert_mail mail;
    uint32_t due = 0;
    for (uint32_t k = 0; k < slots; k++) {
        due += of[k].armed && of[k].deadline <= now;
    }
    IS(ert_world_turn(&world, 0, &turned), ERT_OK);
    IS(turned.to, now);
    IS(turned.expired, due);
    IS(turned.put, due);
    for (; due > 0; due--) {
        IS(ert_world_take(&world, 0, &mail), ERT_OK);
        IS(mail.tag, ERT_TIMEOUT);
        IS(mail.timer.slot < slots, true);
        IS(of[mail.timer.slot].armed, true);
        IS(mail.timer.generation, of[mail.timer.slot].last);
        IS(mail.msg, of[mail.timer.slot].msg);
        forget(mail.timer);
    }
    IS(ert_world_take(&world, 0, &mail), ERT_EMPTY);
}

/* A name that isn't that of an armed timer is answered so, and changes nothing. */
static void is_none(ert_timer timer) {
    uint64_t left = 7;
    IS(ert_world_read(&world, &timer, &left), ERT_NO_TIMER);
    IS(ert_world_cancel(&world, &timer, &left), ERT_NO_TIMER);
    IS(ert_seat_read(&seat, &timer, &left), ERT_NO_TIMER);
    IS(ert_seat_cancel(&seat, &timer, &left), ERT_NO_TIMER);
    IS(left, 7);
}

/* Cancels an armed timer, now and then by the seat, which tells its wheel nothing. */
static void cancel(ert_timer timer) {
    const uses *u = &of[timer.slot];
    uint64_t left = 7;
    IS(below(4) == 0 ? ert_seat_cancel(&seat, &timer, &left) : ert_world_cancel(&world, &timer, &left), ERT_OK);
    IS(left, u->deadline < now ? 0 : u->deadline - now);
    forget(timer);
    is_none(timer);
}

static void try_names(ert_timer timer) {
    const uses *u = &of[timer.slot];
    const uint64_t made_up[] = {0,
                                u->last - 1,
                                u->last + 1,
                                u->last ^ LATER,
                                u->last + (LATER << 18),
                                use_of(u->last),
                                use_of(u->last) * LATER,
                                LATER * USES_OF_ROUND + u->deadline,
                                UINT64_MAX};
    for (uint32_t i = 0; i < sizeof made_up / sizeof *made_up; i++) {
        if (made_up[i] != u->last) {
            is_none((ert_timer){0, timer.slot, made_up[i]});
        }
    }
    for (uint32_t i = 0; i < 4 && olds > 0; i++) {
        is_none(old[below(olds)]);
    }
    is_none((ert_timer){0, slots, timer.generation});
    is_none((ert_timer){1, timer.slot, timer.generation});
    uint64_t left = 7;
    IS(ert_world_read(&world, &timer, &left), ERT_OK);
    IS(left, u->deadline < now ? 0 : u->deadline - now);
}

/* The slot and the generation are ones that the model allows; the slot is in use from now on. */
static void take(ert_timer timer, uint64_t wanted, uint64_t msg) {
    IS(timer.wheel, 0);
    IS(timer.slot < slots, true);
    uses *u = &of[timer.slot];
    IS(u->armed, false);
    IS(rests(u), false);
    uint64_t used = use_of(u->last);
    if (used == USES_OF_ROUND) {
        used = 0;
        u->since = u->above;
        u->rounds += 1;
    }
    u->deadline = wanted;
    u->last = used + 1;
    if (u->since > 0) {
        u->deadline = wanted < now ? now : wanted;
        u->last = LATER * (used + 1) + u->deadline;
    }
    IS(timer.generation, u->last);
    u->armed = true;
    u->msg = msg;
    if (u->above <= u->deadline) {
        u->above = u->deadline + 1;
    }
}

/* What is told of the room of the wheel is what the model says. */
static void room(void) {
    uint32_t free = 0, told = 7;
    uint64_t ready = 0, at = 7;
    for (uint32_t k = 0; k < slots; k++) {
        if (of[k].armed) {
            continue;
        }
        if (!rests(&of[k])) {
            free += 1;
        } else if (ready == 0 || of[k].above < ready) {
            ready = of[k].above;
        }
    }
    IS(ert_world_ready(&world, 0, &told, &at), ERT_OK);
    IS(told, free);
    IS(at, ready);
}

/* Starts a timer, and answers whether there was a slot for it. */
static bool start(ert_timer *timer) {
    ert_start s = {.when = (int64_t)below(20)};
    if (below(1000) == 0) {
        s.when += 5000;
    }
    uint64_t wanted = now + (uint64_t)s.when;
    if (below(4) == 0) {
        /* The time may have passed. */
        s.absolute = 1;
        wanted = now + below(8);
        wanted -= wanted < 4 ? wanted : 4;
        s.when = (int64_t)wanted;
    }
    s.msg = below(UINT32_MAX);
    bool can = false;
    for (uint32_t k = 0; k < slots; k++) {
        can = can || (!of[k].armed && !rests(&of[k]));
    }
    IS(ert_world_start(&world, 0, &s, timer), can ? ERT_OK : ERT_FULL);
    if (can) {
        take(*timer, wanted, s.msg);
    }
    return can;
}

static int by_number(const void *a, const void *b) {
    uint64_t x = *(const uint64_t *)a, y = *(const uint64_t *)b;
    return (x > y) - (x < y);
}

/* So many timers: half are cancelled at once, and the others stay until they are due or are cancelled later. */
static void live(uint32_t of_slots, uint32_t timers) {
    ert_settings settings = {.size = sizeof settings, .schedulers = 1, .processes = 1, .slots = of_slots, .callers = 2, .looks = 64};
    slots = of_slots;
    now = 0;
    olds = 0;
    for (uint32_t k = 0; k < MOST_SLOTS; k++) {
        of[k] = (uses){0};
    }
    IS(ert_world_open(&world, &settings), ERT_OK);
    IS(ert_seat_open(&seat, &world), ERT_OK);
    uint64_t *names = calloc(timers, sizeof *names);
    if (names == NULL) {
        exit(EXIT_FAILURE);
    }
    for (uint32_t n = 0; n < timers;) {
        ert_timer timer;
        if (below(16) == 0) {
            room();
        }
        if (!start(&timer)) {
            room();
            tick(1 + below(4));
            turn();
            continue;
        }
        names[n++] = timer.generation * MOST_SLOTS + timer.slot;
        /* Of a round the first and the last names, and some others. */
        uint64_t use = use_of(timer.generation);
        if (use < 4 || use > USES_OF_ROUND - 4 || below(256) == 0) {
            try_names(timer);
        }
        if (below(2) == 0) {
            cancel(timer);
        } else if (below(8) == 0) {
            uint32_t k = (uint32_t)below(slots);
            if (of[k].armed) {
                cancel((ert_timer){0, k, of[k].last});
            }
        }
        if (below(4) == 0) {
            tick(below(3));
            turn();
        }
    }
    /* No name was given twice. */
    qsort(names, timers, sizeof *names, by_number);
    for (uint32_t n = 1; n < timers; n++) {
        IS(names[n - 1] < names[n], true);
    }
    free(names);
    uint32_t rounds = 0;
    for (uint32_t k = 0; k < slots; k++) {
        rounds += of[k].rounds;
    }
    IS(rounds >= slots, true);
    printf("%" PRIu32 " timers in %" PRIu32 " slot%s\n", timers, slots, slots == 1 ? "" : "s");
    IS(ert_world_close(&world), ERT_OK);
    IS(ert_seat_close(&seat), ERT_OK);
}

/* A slot that has had its uses rests until the last deadline has passed: full until then, and not an instant longer. */
static void rest(void) {
    ert_settings settings = {.size = sizeof settings, .schedulers = 1, .processes = 1, .slots = 1, .callers = 2, .looks = 64};
    ert_start week = {.when = 604800000}, soon = {.when = 1};
    ert_timer first, timer, later;
    uint64_t left;
    now = 0;
    IS(ert_world_open(&world, &settings), ERT_OK);
    IS(ert_seat_open(&seat, &world), ERT_OK);
    IS(ert_world_start(&world, 0, &week, &first), ERT_OK);
    IS(ert_world_cancel(&world, &first, &left), ERT_OK);
    for (uint32_t n = 1; n < USES_OF_ROUND; n++) {
        IS(ert_world_start(&world, 0, &soon, &timer), ERT_OK);
        IS(ert_world_cancel(&world, &timer, &left), ERT_OK);
    }
    IS(timer.generation, USES_OF_ROUND);
    IS(ert_world_start(&world, 0, &soon, &later), ERT_FULL);
    uint32_t free = 7;
    uint64_t ready = 7;
    IS(ert_world_ready(&world, 0, &free, &ready), ERT_OK);
    IS(free, 0);
    IS(ready, 604800001);
    tick(604800000);
    IS(ert_world_start(&world, 0, &soon, &later), ERT_FULL);
    tick(1);
    IS(ert_world_ready(&world, 0, &free, &ready), ERT_OK);
    IS(free, 1);
    IS(ready, 0);
    IS(ert_world_start(&world, 0, &soon, &later), ERT_OK);
    IS(later.slot, 0);
    IS(later.generation, LATER + 604800002);
    is_none(first);
    is_none(timer);
    IS(ert_world_cancel(&world, &later, &left), ERT_OK);
    IS(left, 1);
    /* A deadline that has passed counts as now. */
    soon.absolute = 1;
    IS(ert_world_start(&world, 0, &soon, &later), ERT_OK);
    IS(later.generation, 2 * LATER + 604800001);
    IS(ert_world_read(&world, &later, &left), ERT_OK);
    IS(left, 0);
    IS(ert_world_close(&world), ERT_OK);
    IS(ert_seat_close(&seat), ERT_OK);
}

/* A start for process 0, and which slot it takes. */
static ert_timer taken(int64_t wait, uint32_t slot, uint64_t generation) {
    ert_start s = {.when = wait};
    ert_timer timer;
    IS(ert_world_start(&world, 0, &s, &timer), ERT_OK);
    IS(timer.slot, slot);
    IS(timer.generation, generation);
    return timer;
}

/*
 * A slot that had a long wait is taken by the next long one, and by a short one only if no other is free. The slot of an
 * expired timer is taken until its message is delivered, and then by the next start.
 */
static void which(void) {
    ert_settings settings = {.size = sizeof settings, .schedulers = 1, .processes = 1, .slots = 8, .callers = 2, .looks = 64};
    ert_advanced advanced;
    ert_delivered delivered;
    uint64_t left;
    now = 0;
    IS(ert_world_open(&world, &settings), ERT_OK);
    IS(ert_seat_open(&seat, &world), ERT_OK);
    ert_timer timer = taken(7200000, 1, 1);
    IS(ert_world_cancel(&world, &timer, &left), ERT_OK);
    IS(left, 7200000);
    taken(1, 0, 1);
    taken(7200000, 1, 2);
    tick(1);
    IS(ert_world_advance(&world, 0, &advanced), ERT_OK);
    IS(advanced.expired, 1);
    taken(1, 2, 1);
    IS(ert_world_deliver(&world, 0, &delivered), ERT_OK);
    IS(delivered.put, 1);
    taken(1, 0, 2);
    IS(ert_world_close(&world), ERT_OK);
    IS(ert_seat_close(&seat), ERT_OK);
}

int main(void) {
    which();
    rest();
    live(1, 1000000);
    live(2, 1500000);
    live(4, 3000000);
    return EXIT_SUCCESS;
}
