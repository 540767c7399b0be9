/*
 * Seats: a thread ticks and makes turns, and four others read the time and cancel timers beside it, each with a
 * seat of its own and no lock. At the end each timer was settled just once, by a cancel or by its message.
 *
 *     cc seats.c -pthread -o seats $(pkg-config --cflags --libs ertime)
 */
#define _POSIX_C_SOURCE 199309L
#include <inttypes.h>
#include <pthread.h>
#include <stdatomic.h>
#include <stdio.h>
#include <stdlib.h>
#include <time.h>

#include "ertime.h"

enum { THREADS = 4, TIMERS = 20000, ROUNDS = 50, PROCESS = 0, SCHED = 0 };

#define MILLISECOND INT64_C(1000000)

/* The timers that were started: a thread reads the first `started` of them. */
static ert_timer timers[TIMERS];
static atomic_int started;
static atomic_int at_work;
static atomic_bool done;

/* What a thread did. It is read once the thread has ended. */
typedef struct {
    ert_seat seat;
    pthread_t thread;
    int number;
    int cancelled;
    int falls;
} worker;

static void must(const char *call, int32_t status) {
    if (status != ERT_OK) {
        fprintf(stderr, "%s: status %" PRId32 "\n", call, status);
        exit(EXIT_FAILURE);
    }
}

static void read_time(worker *w, int64_t *last) {
    int64_t time;
    must("ert_seat_monotonic_time", ert_seat_monotonic_time(&w->seat, &time));
    if (time < *last) {
        w->falls += 1;
    }
    *last = time;
}

/* Two threads try to cancel the same timer: one of them, the turn, or nobody finds it armed. */
static void *work(void *argument) {
    worker *w = argument;
    atomic_fetch_add(&at_work, 1);
    int64_t last = INT64_MIN;
    int next = w->number / 2;
    bool finished = false;
    while (!finished) {
        finished = atomic_load(&done);
        read_time(w, &last);
        for (int until = atomic_load(&started); next < until; next += 4) {
            uint64_t left;
            int32_t status = ert_seat_cancel(&w->seat, &timers[next], &left);
            if (status == ERT_OK) {
                w->cancelled += 1;
            } else if (status != ERT_NO_TIMER) {
                must("ert_seat_cancel", status);
            }
            read_time(w, &last);
        }
    }
    return NULL;
}

/* Takes all messages of the process, and answers how many there were. */
static int take_all(ert_world *world) {
    ert_mail mail;
    int taken = 0;
    int32_t status;
    while ((status = ert_world_take(world, PROCESS, &mail)) == ERT_OK) {
        taken += 1;
    }
    if (status != ERT_EMPTY) {
        must("ert_world_take", status);
    }
    return taken;
}

static void tick(ert_world *world, int64_t milliseconds) {
    ert_reading reading = {milliseconds * MILLISECOND, milliseconds * MILLISECOND};
    ert_moved moved;
    must("ert_world_tick", ert_world_tick(world, &reading, 0, &moved));
}

/* Lets the other threads go on for a while. */
static void wait_a_little(void) {
    struct timespec wait = {0, 100000};
    nanosleep(&wait, NULL);
}

int main(void) {
    static worker workers[THREADS];
    ert_world world = ERT_INIT;
    ert_reading first = {0, 0};
    ert_settings settings;
    ert_settings_init(&settings, &first);
    settings.slots = TIMERS; /* one for each start, so no start finds the wheel full */
    settings.callers = THREADS + 1;
    must("ert_world_open", ert_world_open(&world, &settings));
    for (int i = 0; i < THREADS; i++) {
        workers[i].number = i;
        must("ert_seat_open", ert_seat_open(&workers[i].seat, &world));
    }
    for (int i = 0; i < THREADS; i++) {
        if (pthread_create(&workers[i].thread, NULL, work, &workers[i]) != 0) {
            fprintf(stderr, "no thread\n");
            return EXIT_FAILURE;
        }
    }

    while (atomic_load(&at_work) < THREADS) {
        wait_a_little();
    }

    int taken = 0;
    ert_turned turned;
    for (int round = 1; round <= ROUNDS; round++) {
        for (int i = 0; i < TIMERS / ROUNDS; i++) {
            int n = atomic_load(&started);
            ert_start start = {.when = 1 + n % 3, .msg = (uint64_t)n, .dest = PROCESS};
            must("ert_world_start", ert_world_start(&world, SCHED, &start, &timers[n]));
            atomic_store(&started, n + 1);
        }
        wait_a_little();
        tick(&world, round);
        must("ert_world_turn", ert_world_turn(&world, SCHED, &turned));
        taken += take_all(&world);
    }
    tick(&world, ROUNDS + 3);
    must("ert_world_turn", ert_world_turn(&world, SCHED, &turned));
    taken += take_all(&world);
    atomic_store(&done, true);

    int cancelled = 0;
    int falls = 0;
    for (int i = 0; i < THREADS; i++) {
        pthread_join(workers[i].thread, NULL);
        cancelled += workers[i].cancelled;
        falls += workers[i].falls;
        must("ert_seat_close", ert_seat_close(&workers[i].seat));
    }
    must("ert_world_close", ert_world_close(&world));
    printf("the time fell: %d times\n", falls);
    printf("timers that were settled: %d of %d\n", cancelled + taken, TIMERS);
    return falls == 0 && cancelled + taken == TIMERS ? EXIT_SUCCESS : EXIT_FAILURE;
}
