/*
 * How often the event loop of a server wakes early. Each packet restarts the idle timer of a connection, and after a minute the
 * packets end. They come one by one, or many at once: then the loop sleeps for longer.
 * There is no clock, as in wakes.c. What is expected stands in ertime.h.
 */
#include <inttypes.h>
#include <stdio.h>
#include <stdlib.h>

#include "ertime.h"

#define MILLISECOND INT64_C(1000000)

/* So many packets come for each millisecond of the minute. An answer that is early is as far from the next as a window is wide. */
enum { CONNECTIONS = 100000, IDLE = 30000, PACKETS = 20, BUSY = 60000, WINDOW = 512 };

static ert_world world = ERT_INIT;
static ert_timer timers[CONNECTIONS];
static int64_t last[CONNECTIONS];
static int64_t now;
static uint64_t expired;
static uint64_t early;

static void expect(int line, const char *what, int64_t got, int64_t wanted) {
    if (got != wanted) {
        fprintf(stderr, "line %d: %s is %" PRId64 ", not %" PRId64 "\n", line, what, got, wanted);
        exit(EXIT_FAILURE);
    }
}

#define IS(got, wanted) expect(__LINE__, #got, (int64_t)(got), (int64_t)(wanted))

static uint32_t drawn(uint32_t below) {
    static uint64_t state = 1;
    state = state * UINT64_C(6364136223846793005) + UINT64_C(1442695040888963407);
    return (uint32_t)((state >> 33) % below);
}

static ert_start idle(uint32_t connection) {
    last[connection] = now;
    return (ert_start){.when = IDLE, .msg = connection};
}

/* A turn at a time. Each timer that expires is due just then: none is late. Tells how many. */
static uint64_t turn(int64_t to) {
    ert_reading reading = {to * MILLISECOND, to * MILLISECOND};
    ert_moved moved;
    ert_turned turned;
    ert_mail mail;
    uint64_t count = 0;
    now = to;
    IS(ert_world_tick(&world, &reading, 0, &moved), ERT_OK);
    IS(ert_world_turn(&world, 0, &turned), ERT_OK);
    IS(turned.to, now);
    while (ert_world_take(&world, 0, &mail) == ERT_OK) {
        IS(last[mail.msg] + IDLE, now);
        count++;
    }
    expired += count;
    return count;
}

/* Sleeps until the answers that come by a time. The time goes on up to that. */
static void sleep_until(int64_t to) {
    uint64_t due;
    while (ert_world_next_due(&world, 0, &due) == ERT_OK && (int64_t)due <= to) {
        IS((int64_t)due > now, 1);
        early += turn((int64_t)due) == 0;
    }
    if (to > now) {
        turn(to);
    }
}

/* A server to which packets come after so many milliseconds each time. */
static void serve(int pause) {
    ert_reading first = {0, 0};
    ert_settings settings;
    uint64_t due;
    uint64_t restarts = 0;
    now = 0;
    expired = early = 0;
    ert_settings_init(&settings, &first);
    settings.slots = CONNECTIONS;
    IS(ert_world_open(&world, &settings), ERT_OK);
    for (uint32_t i = 0; i < CONNECTIONS; i++) {
        ert_start start = idle(i);
        IS(ert_world_start(&world, 0, &start, &timers[i]), ERT_OK);
    }
    for (int64_t at = pause; at <= BUSY; at += pause) {
        sleep_until(at);
        for (int packet = 0; packet < PACKETS * pause; packet++) {
            uint32_t connection = drawn(CONNECTIONS);
            if (last[connection] + IDLE <= now) {
                continue; /* it was closed */
            }
            ert_start start = idle(connection);
            IS(ert_world_restart(&world, &timers[connection], &start), ERT_OK);
            restarts++;
        }
    }
    uint64_t busy = early;
    IS(busy <= BUSY / WINDOW + 1, 1);
    sleep_until(BUSY + IDLE);
    IS(expired, CONNECTIONS);
    IS(early <= (BUSY + IDLE) / WINDOW + 1, 1);
    IS(ert_world_next_due(&world, 0, &due), ERT_EMPTY);
    IS(ert_world_close(&world), ERT_OK);
    printf("%" PRIu64 " restarts, %d ms from packets to packets: %" PRIu64 " early wakes in the minute, %" PRIu64 " in half a minute after that\n", restarts, pause, busy, early - busy);
}

int main(void) {
    serve(1);
    serve(100);
    serve(1000);
    return EXIT_SUCCESS;
}
