/*
 * What the header forbids: two threads use one handle at the same time. Under ThreadSanitizer this must be reported, by the touch
 * of the handle in include/ertime_tsan.h: it is the only reason why this program may fail.
 *
 * The threads take turns by a relaxed atomic counter, which orders nothing, so that the calls themselves don't overlap.
 */
#include "ertime.h"

#include <pthread.h>
#include <stdatomic.h>

enum { ROUNDS = 100 };

static ert_world world = ERT_INIT;
static _Atomic int turn;

static void *work(void *mine) {
    int64_t time;
    for (int i = 0; i < ROUNDS; i++) {
        while (atomic_load_explicit(&turn, memory_order_relaxed) % 2 != *(int *)mine) {
        }
        (void)ert_world_monotonic_time(&world, &time);
        atomic_fetch_add_explicit(&turn, 1, memory_order_relaxed);
    }
    return NULL;
}

int main(void) {
    ert_reading reading = {0, 0};
    ert_settings settings;
    pthread_t threads[2];
    int numbers[2] = {0, 1};

    ert_settings_init(&settings, &reading);
    if (ert_world_open(&world, &settings) != ERT_OK) {
        return 1;
    }
    for (int i = 0; i < 2; i++) {
        if (pthread_create(&threads[i], NULL, work, &numbers[i]) != 0) {
            return 1;
        }
    }
    for (int i = 0; i < 2; i++) {
        if (pthread_join(threads[i], NULL) != 0) {
            return 1;
        }
    }
    return ert_world_close(&world) == ERT_OK ? 0 : 1;
}
