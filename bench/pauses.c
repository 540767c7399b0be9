/* How long single calls take on a wheel that is full.
 *
 *     pauses SLOTS
 *
 * As many timers as the wheel has slots are due at random within 200 seconds, all for one process, in which a window of
 * 262 seconds begins. It prints in nanoseconds of processor time: a start, the least of some calls of ert_world_ready, of
 * ert_world_next_due and of a start that is refused, the longest advance by a millisecond, until all have expired, and the
 * exit of a process with as many timers. At last the longest turn of a server with as many timers over 285 seconds: of three
 * timers of a connection packets restart two, of 60 and 30 seconds, in random order, and the third is due within an hour.
 * A window of 262 seconds begins in these too. And the longest turn of 256 timers at most after a leap of an hour, in which all
 * timers are due: they were restarted in random order. Then as many timers of 10,050 milliseconds, which are all restarted after 100,
 * to one deadline: the longest turn before that, and all turns together with that in which they expire, where they were restarted
 * from the last to the first, and the same two where they were in random order. Their messages come in the order of the restarts. */
#define _POSIX_C_SOURCE 199309L

#include <inttypes.h>
#include <stdint.h>
#include <stdio.h>
#include <stdlib.h>
#include <time.h>

#include "ertime.h"

enum { SPREAD = 200000, LOOKS = 7, KINDS = 3, SERVED = 285000, FIRST = 1000, PACKETS = 100, HOUR = 3600000, PIECE = 256, LONG = 10050, AFTER = 100, ANEW = 10000 };

static ert_world world = ERT_INIT;
static ert_reading reading;
static uint32_t slots;

static double nanoseconds(void) {
    struct timespec now;
    clock_gettime(CLOCK_PROCESS_CPUTIME_ID, &now);
    return (double)now.tv_sec * 1e9 + (double)now.tv_nsec;
}

static void must(int32_t status) {
    if (status != ERT_OK) {
        fprintf(stderr, "status %" PRId32 "\n", status);
        exit(EXIT_FAILURE);
    }
}

static void open_world(void) {
    ert_settings settings;
    reading = (ert_reading){0};
    ert_settings_init(&settings, &reading);
    settings.slots = slots;
    must(ert_world_open(&world, &settings));
    ert_moved moved;
    reading.mono = reading.sys = INT64_C(200000000000);
    must(ert_world_tick(&world, &reading, 0, &moved));
}

/* The nanoseconds of a start, where every slot is taken by a timer. */
static double fill(void) {
    uint64_t state = 1;
    ert_timer timer;
    double begun = nanoseconds();
    for (uint32_t i = 0; i < slots; i++) {
        state = state * UINT64_C(6364136223846793005) + UINT64_C(1442695040888963407);
        ert_start start = {.when = 1 + (int64_t)((state >> 33) % SPREAD)};
        must(ert_world_start(&world, 0, &start, &timer));
    }
    return (nanoseconds() - begun) / slots;
}

static void ready(void) {
    uint32_t room;
    uint64_t at;
    must(ert_world_ready(&world, 0, &room, &at));
}

static void next_due(void) {
    uint64_t due;
    must(ert_world_next_due(&world, 0, &due));
}

static void refused(void) {
    ert_timer timer;
    ert_start start = {.when = 1};
    if (ert_world_start(&world, 0, &start, &timer) != ERT_FULL) {
        fprintf(stderr, "the wheel isn't full\n");
        exit(EXIT_FAILURE);
    }
}

static double least(void (*call)(void)) {
    double found = 1e18;
    for (int i = 0; i < LOOKS; i++) {
        double begun = nanoseconds();
        call();
        double took = nanoseconds() - begun;
        found = took < found ? took : found;
    }
    return found;
}

/* The longest advance by a millisecond, until all timers have expired and their messages were taken. */
static double longest_advance(void) {
    double longest = 0;
    uint64_t taken = 0;
    for (int i = 0; i < SPREAD; i++) {
        ert_moved moved;
        ert_advanced advanced;
        ert_delivered delivered;
        ert_mail mail;
        reading.mono += 1000000;
        reading.sys += 1000000;
        must(ert_world_tick(&world, &reading, 0, &moved));
        double begun = nanoseconds();
        must(ert_world_advance(&world, 0, &advanced));
        double took = nanoseconds() - begun;
        longest = took > longest ? took : longest;
        must(ert_world_deliver(&world, 0, &delivered));
        while (ert_world_take(&world, 0, &mail) == ERT_OK) {
            taken++;
        }
    }
    if (taken != slots) {
        fprintf(stderr, "%" PRIu64 " of %" PRIu32 " timers expired\n", taken, slots);
        exit(EXIT_FAILURE);
    }
    return longest;
}

static double leave(void) {
    uint32_t first;
    double begun = nanoseconds();
    must(ert_world_exit(&world, 0, &first));
    return nanoseconds() - begun;
}

static uint64_t drawn(void) {
    static uint64_t state = 1;
    state = state * UINT64_C(6364136223846793005) + UINT64_C(1442695040888963407);
    return state >> 33;
}

/* The timer of a kind of a connection, as its message tells it. */
static ert_start timer_of(uint32_t at) {
    static const int64_t waits[KINDS] = {60000, 30000, HOUR};
    uint32_t kind = at % KINDS;
    int64_t wait = kind == 2 ? FIRST + (int64_t)(drawn() % HOUR) : waits[kind];
    return (ert_start){.when = wait, .msg = at};
}

/* The longest turn by a millisecond among timers that packets restart in random order. */
static double longest_turn(void) {
    double longest = 0;
    ert_timer *timers = calloc(slots, sizeof *timers);
    if (timers == NULL) {
        exit(EXIT_FAILURE);
    }
    for (uint32_t i = 0; i < slots; i++) {
        ert_start start = timer_of(i);
        must(ert_world_start(&world, 0, &start, &timers[i]));
    }
    for (int i = 0; i < SERVED; i++) {
        ert_moved moved;
        ert_turned turned;
        ert_mail mail;
        reading.mono += 1000000;
        reading.sys += 1000000;
        must(ert_world_tick(&world, &reading, 0, &moved));
        for (int p = 0; p < PACKETS; p++) {
            uint32_t first = (uint32_t)(drawn() % (slots / KINDS)) * KINDS;
            for (uint32_t kind = 0; kind < 2; kind++) {
                ert_start start = timer_of(first + kind);
                must(ert_world_restart(&world, &timers[first + kind], &start));
            }
        }
        double begun = nanoseconds();
        must(ert_world_turn(&world, 0, &turned));
        double took = nanoseconds() - begun;
        longest = took > longest ? took : longest;
        while (ert_world_take(&world, 0, &mail) == ERT_OK) {
            ert_start start = timer_of((uint32_t)mail.msg);
            must(ert_world_start(&world, 0, &start, &timers[mail.msg]));
        }
    }
    free(timers);
    return longest;
}

/* The longest turn of so many timers at most after a leap, until all have expired and their messages were taken. */
static double longest_piece(void) {
    double longest = 0;
    uint64_t taken = 0;
    ert_moved moved;
    ert_turned_some turned;
    ert_mail mail;
    ert_timer *timers = calloc(slots, sizeof *timers);
    if (timers == NULL) {
        exit(EXIT_FAILURE);
    }
    for (uint32_t i = 0; i < slots; i++) {
        ert_start start = {.when = HOUR};
        must(ert_world_start(&world, 0, &start, &timers[i]));
    }
    for (uint32_t i = 0; i < slots; i++) {
        ert_start start = {.when = 1 + (int64_t)(drawn() % HOUR)};
        must(ert_world_restart(&world, &timers[drawn() % slots], &start));
    }
    reading.mono += HOUR * INT64_C(1000000);
    reading.sys += HOUR * INT64_C(1000000);
    must(ert_world_tick(&world, &reading, 0, &moved));
    do {
        double begun = nanoseconds();
        must(ert_world_turn_some(&world, 0, PIECE, &turned));
        double took = nanoseconds() - begun;
        longest = took > longest ? took : longest;
        while (ert_world_take(&world, 0, &mail) == ERT_OK) {
            taken++;
        }
    } while (turned.more != 0);
    if (taken != slots) {
        fprintf(stderr, "%" PRIu64 " of %" PRIu32 " timers expired\n", taken, slots);
        exit(EXIT_FAILURE);
    }
    free(timers);
    return longest;
}

/* The longest turn before a deadline to which all timers are restarted in one millisecond, and all turns together. */
static void at_once(int random) {
    double longest = 0;
    double last = 0;
    double sum = 0;
    uint32_t taken = 0;
    ert_timer *timers = calloc(slots, sizeof *timers);
    uint32_t *order = calloc(slots, sizeof *order);
    if (timers == NULL || order == NULL) {
        exit(EXIT_FAILURE);
    }
    for (uint32_t i = 0; i < slots; i++) {
        ert_start start = {.when = LONG, .msg = i};
        must(ert_world_start(&world, 0, &start, &timers[i]));
        order[i] = slots - 1 - i;
    }
    for (uint32_t i = slots - 1; random && i > 0; i--) {
        uint32_t other = (uint32_t)(drawn() % (i + 1));
        uint32_t kept = order[i];
        order[i] = order[other];
        order[other] = kept;
    }
    for (int i = 0; i < AFTER + ANEW; i++) {
        ert_moved moved;
        ert_turned turned;
        ert_mail mail;
        if (i == AFTER) {
            for (uint32_t k = 0; k < slots; k++) {
                ert_start start = {.when = ANEW, .msg = order[k]};
                must(ert_world_restart(&world, &timers[order[k]], &start));
            }
        }
        reading.mono += 1000000;
        reading.sys += 1000000;
        must(ert_world_tick(&world, &reading, 0, &moved));
        longest = last > longest ? last : longest;
        double begun = nanoseconds();
        must(ert_world_turn(&world, 0, &turned));
        last = nanoseconds() - begun;
        sum += last;
        while (ert_world_take(&world, 0, &mail) == ERT_OK) {
            if (i + 1 != AFTER + ANEW || mail.msg != order[taken]) {
                fprintf(stderr, "a timer expired out of order\n");
                exit(EXIT_FAILURE);
            }
            taken++;
        }
    }
    if (taken != slots) {
        fprintf(stderr, "%" PRIu32 " of %" PRIu32 " timers expired\n", taken, slots);
        exit(EXIT_FAILURE);
    }
    printf(" %.0f %.0f", longest, sum);
    free(order);
    free(timers);
}

int main(int count, char **words) {
    slots = count == 2 ? (uint32_t)strtoul(words[1], NULL, 10) : 0;
    if (slots == 0) {
        fprintf(stderr, "usage: pauses SLOTS\n");
        return 2;
    }
    open_world();
    double start = fill();
    printf("%.1f %.0f %.0f %.0f", start, least(ready), least(next_due), least(refused));
    printf(" %.0f", longest_advance());
    fill();
    printf(" %.0f", leave());
    must(ert_world_close(&world));
    open_world();
    printf(" %.0f", longest_turn());
    must(ert_world_close(&world));
    open_world();
    printf(" %.0f", longest_piece());
    must(ert_world_close(&world));
    for (int random = 0; random < 2; random++) {
        open_world();
        at_once(random);
        must(ert_world_close(&world));
    }
    printf("\n");
}
