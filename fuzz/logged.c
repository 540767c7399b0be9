/*
 * A run of shards that writes down what it did: 2 to 4 threads with a shard each, 2 to 4 with a seat, and one with the
 * hub, which ticks by readings of its own. They make random calls at the same time, most of them on the timers that were
 * started last, whichever thread did, and are stopped by signals in the middle of them.
 *
 *     cc logged.c noted.c -O2 -pthread -o logged $(pkg-config --cflags --libs ertime)
 *     ./logged [SEED [CALLS]] | tools/order
 *
 * Each thread makes CALLS calls, 150 if none is given. SEED, 1 if none is given, draws the settings (seed by seed the
 * next time warp mode), how many threads there are, and what each does, and not how they meet. A call is noted with what
 * it was asked, what it answered, and two numbers of one counter, from before it and from after it. The log is written
 * once all threads have ended and what was left has been let expire, delivered and taken; the head of
 * tools/ordering/log.py describes the log.
 */
#define _POSIX_C_SOURCE 200809L
#include <errno.h>
#include <inttypes.h>
#include <pthread.h>
#include <sched.h>
#include <signal.h>
#include <stdatomic.h>
#include <stdio.h>
#include <stdlib.h>
#include <time.h>

#include "ertime.h"
#include "noted.h"

enum { MOST = 4, PROCESSES = 3, SPARE = 1000, RECENT = 6 };

#define MILLISECOND INT64_C(1000000)

/* What each thread draws its calls from. */
static const kind OF_HUB[] = {TICK, TICK, TICK, TICK, TICK, TICK, TICK, TIME, SYSTEM, OFFSET, CANCEL, READ};
static const kind OF_SEAT[] = {CANCEL, CANCEL, CANCEL, CANCEL, READ, READ, READ, TIME, SYSTEM, OFFSET, ALIVE};
static const kind OF_SHARD[] = {START, START, START, START, START, START, RESTART, CANCEL, CANCEL, READ, TURN, TURN,
    ADVANCE, DELIVER, TAKE, TAKE, TAKE_SOME, NEXT_MAIL, ASK, ASK, ASK, SERVE, TIME, SYSTEM, OFFSET, ALIVE, MONITOR, DEMONITOR,
    NOTIFY, NOTIFY};

typedef enum { HUB, SHARD, SEAT } role;

typedef struct {
    pthread_t thread;
    uint64_t random;
    int64_t milliseconds; /* the last time that the thread saw, after the start time */
    call *calls;
    ert_timer *names; /* the timers that a shard started: others read the first `started` of them */
    ert_shard shard;
    ert_seat seat;
    role role;
    uint32_t caller;
    uint32_t from; /* the first process of a shard */
    int count;     /* of its calls */
    atomic_int started;
} actor;

static ert_hub hub;
static ert_settings settings;
static ert_reading reading; /* the last one, of the hub's thread */
static actor actors[2 * MOST + 1];
static int shards, seats, calls;
static atomic_uint_fast64_t counter;
static atomic_int ready, ended;

static void must(const char *what, int32_t status) {
    if (status != ERT_OK) {
        fprintf(stderr, "%s: %s\n", what, ert_status_text(status));
        exit(EXIT_FAILURE);
    }
}

static void *room_for(size_t count, size_t size) {
    void *room = calloc(count, size);
    if (room == NULL) {
        must("calloc", ERT_NO_MEMORY);
    }
    return room;
}

static uint64_t below(uint64_t *state, uint64_t limit) {
    *state ^= *state << 13;
    *state ^= *state >> 7;
    *state ^= *state << 17;
    return (*state >> 11) % limit;
}

static bool one_in(actor *a, uint64_t many) {
    return below(&a->random, many) == 0;
}

static actor *shard_of(uint64_t number) {
    return &actors[1 + number];
}

/* A timer that any shard has just started, or may start next, or one that none can have. */
static ert_timer any_timer(actor *a) {
    uint32_t wheel = (uint32_t)below(&a->random, (uint64_t)shards);
    actor *s = shard_of(wheel);
    int started = atomic_load(&s->started);
    ert_timer timer = {wheel, (uint32_t)below(&a->random, settings.slots), 1};
    if (started > 0) {
        uint64_t recent = started < RECENT ? (uint64_t)started : RECENT;
        timer = s->names[started - 1 - (int)below(&a->random, recent)];
        timer.generation += one_in(a, 8);
    }
    if (one_in(a, 64)) {
        timer.wheel = settings.schedulers;
    }
    return timer;
}

/* The next reading: OS monotonic time may stand or fall a little, and OS system time leaps. */
static ert_reading next_reading(actor *a) {
    reading.mono += (int64_t)below(&a->random, one_in(a, 4) ? 3000000 : 500000);
    if (one_in(a, 60)) {
        reading.mono += 61000 * MILLISECOND;
    }
    static int64_t ahead;
    if (one_in(a, 12)) {
        ahead += (int64_t)below(&a->random, 8000000) - 4000000;
    }
    reading.sys = settings.first.sys + (reading.mono - settings.first.mono) + ahead;
    ert_reading given = reading;
    if (one_in(a, 20)) {
        given.mono -= one_in(a, 4) ? INT64_C(1) << 62 : MILLISECOND;
    }
    return given;
}

static ert_start any_start(actor *a, uint64_t number) {
    ert_start start = {.when = (int64_t)below(&a->random, one_in(a, 8) ? 20 : 4),
        .msg = number,
        .bare = one_in(a, 4),
        .dest = a->from + (uint32_t)below(&a->random, PROCESSES)};
    if (one_in(a, 4)) {
        start.absolute = 1;
        start.when += a->milliseconds + settings.start / MILLISECOND;
    }
    if (one_in(a, 50)) {
        start.when -= INT64_C(1) << 50;
    }
    return start;
}

/* A request to the shard, mostly with an answer to a process of it. */
static ert_request any_request(actor *a, uint32_t process) {
    ert_request request = {.kind = one_in(a, 2) ? ERT_CANCEL : ERT_READ,
        .timer = any_timer(a),
        .reply_to = process,
        .info = !one_in(a, 8)};
    return request;
}

/* What the call is asked. */
static void ask(actor *a, call *c) {
    c->force = one_in(a, 6);
    if (a->role == HUB) {
        c->reading = next_reading(a);
    }
    c->process = a->role == SHARD && c->kind != ALIVE ? a->from + (uint32_t)below(&a->random, PROCESSES)
                                                      : (uint32_t)below(&a->random, settings.processes);
    c->monitor = (uint32_t)below(&a->random, 8);
    c->room = (size_t)below(&a->random, MOST_TAKEN + 1);
    if (c->kind == START || c->kind == RESTART) {
        c->start = any_start(a, (uint64_t)(c - a->calls));
    }
    if (c->kind == ASK) {
        c->request = any_request(a, c->process);
    } else if (c->kind != START) {
        c->timer = any_timer(a);
    }
}

/* Makes a call that was asked, and notes what it answers. */
static void make(actor *a, call *c) {
    c->begin = atomic_fetch_add(&counter, 1);
    c->status = a->role == HUB ? call_hub(&hub, c) : a->role == SEAT ? call_seat(&a->seat, c) : call_shard(&a->shard, c);
    c->end = atomic_fetch_add(&counter, 1);
    if (c->status == ERT_NO_MEMORY) {
        must("a call", c->status);
    }
}

/* What the thread keeps of an answer. */
static void keep(actor *a, const call *c) {
    if (c->status != ERT_OK) {
        return;
    }
    if (c->kind == START || c->kind == RESTART) {
        int started = atomic_load(&a->started);
        a->names[started] = c->kind == START ? c->timer : c->restarted;
        atomic_store(&a->started, started + 1);
    } else if (c->kind == TURN || c->kind == ADVANCE) {
        a->milliseconds = (int64_t)c->turned.to;
    }
}

static const call *do_call(actor *a, kind what) {
    if (a->count == calls + SPARE) {
        must("the log", ERT_NO_MEMORY);
    }
    call *c = &a->calls[a->count];
    c->kind = what;
    ask(a, c);
    make(a, c);
    a->count += 1;
    keep(a, c);
    return c;
}

static kind any_kind(actor *a) {
    if (a->role == HUB) {
        return one_in(a, 50) ? FINALIZE : OF_HUB[below(&a->random, sizeof OF_HUB / sizeof *OF_HUB)];
    }
    if (a->role == SEAT) {
        return OF_SEAT[below(&a->random, sizeof OF_SEAT / sizeof *OF_SEAT)];
    }
    return one_in(a, 120) ? EXIT : OF_SHARD[below(&a->random, sizeof OF_SHARD / sizeof *OF_SHARD)];
}

/* What a signal does to a thread, wherever it is: it stops, and others overtake it. */
static void stop_a_while(int number) {
    (void)number;
    int before = errno;
    struct timespec wait = {0, 1000};
    nanosleep(&wait, NULL);
    errno = before;
}

static void *work(void *argument) {
    actor *a = argument;
    atomic_fetch_add(&ready, 1);
    while (atomic_load(&ready) <= shards + seats + 1) {
        sched_yield();
    }
    for (int i = 0; i < calls; i++) {
        do_call(a, any_kind(a));
        if (one_in(a, 2)) {
            sched_yield();
        }
    }
    atomic_fetch_add(&ended, 1);
    return NULL;
}

/* All that is left is served, let expire, delivered and taken. */
static void settle(void) {
    reading.mono += 61000 * MILLISECOND;
    do_call(&actors[0], TICK);
    for (int i = 0; i < shards; i++) {
        actor *s = shard_of((uint64_t)i);
        while (do_call(s, TURN)->turned.served > 0) {
        }
        while (do_call(s, NEXT_MAIL)->status == ERT_OK) {
            do_call(s, one_in(s, 2) ? TAKE : TAKE_SOME);
        }
    }
}

static void open_actor(actor *a, role of, uint32_t caller, uint64_t *seed) {
    a->role = of;
    a->caller = caller;
    a->random = below(seed, UINT64_C(1) << 52) | 1;
    a->calls = room_for((size_t)calls + SPARE, sizeof *a->calls);
    a->names = room_for((size_t)calls + SPARE, sizeof *a->names);
}

static void open_all(uint64_t seed, uint64_t *random) {
    ert_reading first = {(int64_t)below(random, 1000) * 1001, (int64_t)below(random, 1000) * 1000003};
    reading = first;
    ert_settings_init(&settings, &first);
    shards = 2 + (int)below(random, MOST - 1);
    seats = 2 + (int)below(random, MOST - 1);
    settings.mode = (uint32_t)(seed % 3);
    settings.correction = below(random, 3) > 0;
    settings.schedulers = (uint32_t)shards;
    settings.processes = (uint32_t)shards * PROCESSES;
    settings.slots = 2 + (uint32_t)below(random, 7);
    settings.callers = (uint32_t)(shards + seats + 1);
    settings.start = ((int64_t)below(random, 3) - 1) * 7000 * MILLISECOND;
    must("ert_hub_open", ert_hub_open(&hub, &settings));
    open_actor(&actors[0], HUB, 0, random);
    for (uint32_t i = settings.schedulers; i > 0; i--) {
        actor *s = shard_of(i - 1);
        uint32_t to;
        open_actor(s, SHARD, i, random);
        must("ert_hub_shard", ert_hub_shard(&hub, &s->shard, PROCESSES));
        must("ert_shard_processes", ert_shard_processes(&s->shard, &s->from, &to));
    }
    for (uint32_t i = settings.schedulers + 1; i < settings.callers; i++) {
        open_actor(&actors[i], SEAT, i, random);
        must("ert_hub_seat", ert_hub_seat(&hub, &actors[i].seat));
    }
}

static void close_all(void) {
    for (uint32_t i = 0; i < settings.callers; i++) {
        if (actors[i].role == SHARD) {
            must("ert_shard_close", ert_shard_close(&actors[i].shard));
        } else if (actors[i].role == SEAT) {
            must("ert_seat_close", ert_seat_close(&actors[i].seat));
        }
        free(actors[i].calls);
        free(actors[i].names);
    }
    must("ert_hub_close", ert_hub_close(&hub));
}

/* Goes on for some microseconds. */
static void wait_a_little(uint64_t *random) {
    struct timespec t;
    clock_gettime(CLOCK_MONOTONIC, &t);
    long end = t.tv_nsec + (long)below(random, 5000);
    for (long begin = t.tv_nsec; begin <= t.tv_nsec && t.tv_nsec < end;) {
        clock_gettime(CLOCK_MONOTONIC, &t);
    }
}

/* Runs the threads, and stops one of them again and again, many times in the middle of a call. */
static void run_threads(uint64_t *random) {
    int threads = shards + seats + 1;
    struct sigaction action = {.sa_handler = stop_a_while, .sa_flags = SA_RESTART};
    sigaction(SIGUSR1, &action, NULL);
    for (int i = 0; i < threads; i++) {
        if (pthread_create(&actors[i].thread, NULL, work, &actors[i]) != 0) {
            must("pthread_create", ERT_NO_MEMORY);
        }
    }
    atomic_fetch_add(&ready, 1);
    while (atomic_load(&ended) < threads) {
        pthread_kill(actors[below(random, (uint64_t)threads)].thread, SIGUSR1);
        wait_a_little(random);
    }
    for (int i = 0; i < threads; i++) {
        pthread_join(actors[i].thread, NULL);
    }
}

int main(int count, char **words) {
    uint64_t seed = count > 1 ? strtoull(words[1], NULL, 10) : 1;
    calls = count > 2 ? atoi(words[2]) : 150;
    uint64_t random = seed * UINT64_C(0x9e3779b97f4a7c15) | 1;
    open_all(seed, &random);
    write_settings(&settings);
    run_threads(&random);
    settle();
    for (uint32_t i = 0; i < settings.callers; i++) {
        for (int j = 0; j < actors[i].count; j++) {
            write_call(actors[i].caller, &actors[i].calls[j]);
        }
    }
    close_all();
    return EXIT_SUCCESS;
}
