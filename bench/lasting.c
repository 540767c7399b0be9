/*
 * A service of four slots whose timers are started and cancelled as often as is said, while time moves on: the
 * slots are used again, round after round, and none of the starts is refused. Prints what a start and a cancel
 * take together, for each tenth of the run.
 */
#define _POSIX_C_SOURCE 199309L
#include <inttypes.h>
#include <stdio.h>
#include <stdlib.h>
#include <time.h>

#include "ertime.h"

/* So many timers a millisecond; a round of a slot takes 263 at least, and its timers wait for 20 at most. */
enum { IN_A_MILLISECOND = 1000, LONGEST_WAIT = 20, PARTS = 10, OLD_NAMES = 1024 };

static int64_t nanoseconds(void) {
    struct timespec now;
    clock_gettime(CLOCK_MONOTONIC, &now);
    return (int64_t)now.tv_sec * 1000000000 + now.tv_nsec;
}

static void must(int32_t status, int32_t wanted, uint64_t done) {
    if (status != wanted) {
        fprintf(stderr, "status %" PRId32 ", not %" PRId32 ", after %" PRIu64 " timers\n", status, wanted, done);
        exit(EXIT_FAILURE);
    }
}

int main(int count, char **words) {
    uint64_t timers = count > 1 ? strtoull(words[1], NULL, 10) : 10000000;
    ert_settings settings = {.size = sizeof settings, .schedulers = 1, .processes = 1, .slots = 4, .callers = 1, .looks = 64};
    ert_world world = ERT_INIT;
    static ert_timer old[OLD_NAMES];
    uint64_t olds = 0, done = 0, left;
    int64_t time = 0;
    must(ert_world_open(&world, &settings), ERT_OK, 0);
    for (uint64_t part = 1; part <= PARTS; part++) {
        uint64_t before = done;
        int64_t begun = nanoseconds();
        for (; done < timers / PARTS * part; done++) {
            ert_start start = {.when = (int64_t)(done % (LONGEST_WAIT + 1)), .msg = done};
            ert_timer timer;
            must(ert_world_start(&world, 0, &start, &timer), ERT_OK, done);
            must(ert_world_cancel(&world, &timer, &left), ERT_OK, done);
            if (done % IN_A_MILLISECOND != 0) {
                continue;
            }
            /* A name of an earlier round, or of this one, names no timer any more. */
            if (olds > 0) {
                must(ert_world_cancel(&world, &old[done / IN_A_MILLISECOND % olds], &left), ERT_NO_TIMER, done);
            }
            if (olds < OLD_NAMES) {
                old[olds++] = timer;
            } else if (done % (IN_A_MILLISECOND * 1000) == 0) {
                old[done / IN_A_MILLISECOND / 1000 % OLD_NAMES] = timer;
            }
            time += 1;
            ert_reading reading = {time * 1000000, time * 1000000};
            ert_moved moved;
            ert_turned turned;
            must(ert_world_tick(&world, &reading, 0, &moved), ERT_OK, done);
            must(ert_world_turn(&world, 0, &turned), ERT_OK, done);
        }
        if (done > before) {
            printf("%12" PRIu64 " timers, %.1f ns for a start and a cancel\n", done,
                   (double)(nanoseconds() - begun) / (double)(done - before));
            fflush(stdout);
        }
    }
    must(ert_world_close(&world), ERT_OK, done);
    return EXIT_SUCCESS;
}
