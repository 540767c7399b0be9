/*
 * What calls of shards take with 1, 2 and 4 threads, each with a shard of its own. Rows as bench/threads.h prints them:
 *
 *   start_cancel   a timer is started and cancelled on the thread's own shard
 *   apart          the same, but each thread has the one shard of a service of its own, so that they share nothing
 *   cancel         each timer is cancelled by one thread, which is another one than its own where there are several
 *   time           monotonic time, beside a thread that ticks
 *
 * Where the heap puts the blocks of a service hangs on what it had to give before, and so does which of them lie side by side.
 * So all rows are run in ten states of the heap, one after the other in this process, and each row is that of the worst state.
 */
#define _GNU_SOURCE
#include "ertime.h"
#include "threads.h"

#include <string.h>

/* Many, so that the clock ticks in each pass. */
enum { READS = 100000 };

enum { STATES = 10, BLOCKS = 64, ROWS = 16 };

typedef struct {
    const char *name;
    int threads;
    double worst;
} row;

static row rows[ROWS];
static int row_count;
static void *blocks[BLOCKS];

typedef struct {
    ert_shard shard;
    uint32_t process;
    ert_timer timers[TIMERS];
    char apart[128];
} worker;

static ert_hub hubs[MOST_THREADS]; /* that of a service for all threads is the first one */
static worker workers[MOST_THREADS];
static int others;
static atomic_bool is_over;
static int64_t now;

static void must(int32_t status) {
    if (status != ERT_OK) {
        fprintf(stderr, "%s\n", ert_status_text(status));
        exit(EXIT_FAILURE);
    }
}

static void tick(int64_t by) {
    now += by;
    ert_reading reading = {now, now};
    ert_moved moved;
    must(ert_hub_tick(hubs, &reading, 0, &moved));
}

/* Opens a service, and gives a shard of it to each of so many threads. */
static void open_shards(ert_hub *hub, worker *first_worker, int threads) {
    ert_settings settings;
    ert_reading first = {0, 0};
    ert_settings_init(&settings, &first);
    settings.schedulers = settings.processes = (uint32_t)threads;
    settings.callers = (uint32_t)threads + 1;
    settings.slots = TIMERS;
    must(ert_hub_open(hub, &settings));
    for (worker *w = first_worker; w < first_worker + threads; w++) {
        uint32_t to;
        must(ert_hub_shard(hub, &w->shard, 1));
        must(ert_shard_processes(&w->shard, &w->process, &to));
    }
}

static void close_shards(ert_hub *hub, worker *first_worker, int threads) {
    for (worker *w = first_worker; w < first_worker + threads; w++) {
        must(ert_shard_close(&w->shard));
    }
    must(ert_hub_close(hub));
}

static void start_and_cancel(int thread) {
    worker *w = &workers[thread];
    ert_start how = {.when = 500, .dest = w->process};
    for (int i = 0; i < CALLS; i++) {
        ert_timer timer;
        uint64_t left;
        must(ert_shard_start(&w->shard, &how, &timer));
        must(ert_shard_cancel(&w->shard, &timer, &left));
    }
}

static void read_time(int thread) {
    for (int i = 0; i < READS; i++) {
        int64_t time;
        must(ert_shard_monotonic_time(&workers[thread].shard, &time));
    }
}

static void cancel_of_others(int thread) {
    ert_timer *timers = workers[(thread + 1) % others].timers;
    uint64_t left;
    for (int i = 0; i < TIMERS; i++) {
        must(ert_shard_cancel(&workers[thread].shard, &timers[cancelled_next(i)], &left));
    }
}

/* The rows of timers that others have cancelled go once they would have been due. */
static void start_all(int threads) {
    tick(INT64_C(600000000000));
    for (int t = 0; t < threads; t++) {
        worker *w = &workers[t];
        ert_turned turned;
        must(ert_shard_turn(&w->shard, &turned));
        for (int i = 0; i < TIMERS; i++) {
            ert_start how = {.when = 1000 + rand() % 500000, .dest = w->process};
            must(ert_shard_start(&w->shard, &how, &w->timers[i]));
        }
    }
}

static void *go_on_ticking(void *unused) {
    (void)unused;
    while (!atomic_load(&is_over)) {
        tick(1000);
        int64_t until = nanoseconds() + 20000;
        while (nanoseconds() < until) {
        }
    }
    return NULL;
}

/* Keeps what a row took where that is more than in the states before. */
static void keep(const char *name, int threads, double taken) {
    row *it = rows;
    while (it < rows + row_count && (it->threads != threads || strcmp(it->name, name) != 0)) {
        it++;
    }
    if (it == rows + row_count) {
        row_count++;
        *it = (row){name, threads, taken};
    }
    it->worst = taken > it->worst ? taken : it->worst;
}

static void measure_shared(int threads) {
    others = threads;
    now = 0;
    open_shards(hubs, workers, threads);
    keep("start_cancel", threads, least(threads, start_and_cancel, NULL, CALLS));
    keep("cancel", threads, least(threads, cancel_of_others, start_all, TIMERS));
    pthread_t ticking;
    atomic_store(&is_over, false);
    if (pthread_create(&ticking, NULL, go_on_ticking, NULL) != 0) {
        exit(EXIT_FAILURE);
    }
    keep("time", threads, least(threads, read_time, NULL, READS));
    atomic_store(&is_over, true);
    pthread_join(ticking, NULL);
    close_shards(hubs, workers, threads);
}

static void measure_apart(int threads) {
    for (int i = 0; i < threads; i++) {
        open_shards(&hubs[i], &workers[i], 1);
    }
    keep("apart", threads, least(threads, start_and_cancel, NULL, CALLS));
    for (int i = 0; i < threads; i++) {
        close_shards(&hubs[i], &workers[i], 1);
    }
}

/* Gives half of the held blocks back, and holds others of random sizes in their place: of some bytes, or of some pages. */
static void change_heap(void) {
    for (int i = 0; i < BLOCKS; i++) {
        if (rand() % 2 == 0) {
            free(blocks[i]);
            blocks[i] = malloc((size_t)1 << (4 + rand() % 14) | (size_t)(rand() % 4096));
        }
    }
}

int main(void) {
    passes = 60;
    for (int state = 0; state < STATES; state++) {
        for (int threads = 1; threads <= MOST_THREADS; threads *= 2) {
            measure_shared(threads);
            measure_apart(threads);
        }
        change_heap();
    }
    for (int i = 0; i < row_count; i++) {
        printf("%s %d %.1f\n", rows[i].name, rows[i].threads, rows[i].worst);
    }
    return EXIT_SUCCESS;
}
