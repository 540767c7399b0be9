/*
 * A worker thread completes requests, and cancels the timeout of each through a seat; the event loop reads the result as soon
 * as the library tells it that the timer isn't armed any more. The results are plain memory: the library's calls alone order
 * the threads. Under ThreadSanitizer nothing may be reported, since include/ertime_tsan.h tells it of that order.
 */
#include "ertime.h"

#include <pthread.h>
#include <stdatomic.h>
#include <stdio.h>
#include <stdlib.h>

enum { ROUNDS = 2000, LOOKS = 100000, RESULT = 42 };

static struct {
    ert_timer timer;
    int result;
} requests[ROUNDS];

static ert_world world = ERT_INIT;
static ert_seat seat = ERT_INIT;
static _Atomic int given;

static void must(int is_so, const char *what) {
    if (!is_so) {
        fprintf(stderr, "%s\n", what);
        exit(1);
    }
}

static void *work(void *none) {
    uint64_t left;
    int cancelled = 0;
    for (int i = 0; i < ROUNDS; i++) {
        while (atomic_load_explicit(&given, memory_order_acquire) <= i) {
        }
        requests[i].result = RESULT;
        cancelled += ert_seat_cancel(&seat, &requests[i].timer, &left) == ERT_OK;
    }
    *(int *)none = cancelled;
    return NULL;
}

int main(void) {
    ert_reading reading = {0, 0};
    ert_settings settings;
    ert_moved moved;
    ert_turned turned;
    ert_mail mail;
    pthread_t worker;
    int cancelled = 0;
    int seen = 0;
    int expired = 0;

    ert_settings_init(&settings, &reading);
    settings.callers = 2;
    settings.slots = 8192;
    must(ert_world_open(&world, &settings) == ERT_OK, "the world is open");
    must(ert_seat_open(&seat, &world) == ERT_OK, "the seat is open");
    must(pthread_create(&worker, NULL, work, &cancelled) == 0, "there is a thread");
    for (int i = 0; i < ROUNDS; i++) {
        ert_start start = {.when = 1, .msg = (uint64_t)i};
        uint64_t left;
        int32_t status = ERT_OK;
        must(ert_world_start(&world, 0, &start, &requests[i].timer) == ERT_OK, "a start");
        atomic_store_explicit(&given, i + 1, memory_order_release);
        for (int looks = 0; looks < LOOKS && status == ERT_OK; looks++) {
            status = ert_world_read(&world, &requests[i].timer, &left);
        }
        if (status == ERT_NO_TIMER) {
            seen++;
            must(requests[i].result == RESULT, "the result of a request that was completed");
            continue;
        }
        reading.mono += 2000000;
        reading.sys = reading.mono;
        must(ert_world_tick(&world, &reading, 0, &moved) == ERT_OK, "a tick");
        must(ert_world_turn(&world, 0, &turned) == ERT_OK, "a turn");
        while (ert_world_take(&world, 0, &mail) == ERT_OK) {
            expired++;
        }
    }
    must(pthread_join(worker, NULL) == 0, "the thread ended");
    must(cancelled + expired == ROUNDS, "each timer was cancelled or expired");
    must(seen <= cancelled, "what was seen was cancelled");
    must(ert_seat_close(&seat) == ERT_OK, "the seat is closed");
    must(ert_world_close(&world) == ERT_OK, "the world is closed");
    return 0;
}
