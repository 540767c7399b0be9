/*
 * A soak of shards: a thread with a shard for each processor, and 16 threads beside them, all of which cancel each
 * other's timers at random, while whoever can ticks. Each timer has to end once, and no name may come twice.
 *
 *     cc shards.c -O2 -pthread -o shards $(pkg-config --cflags --libs ertime)
 *     ./shards [SECONDS] [SEED]
 *
 * It goes on in rounds, in the three time warp modes in turn, each with a service of its own. In a round every shard
 * starts some 100,000 timers on few slots, for processes of which some exit. Then the threads end, the clock goes past
 * all deadlines, and what became of each timer is looked at:
 *
 *   delivered   its message was taken, or lies in the mailbox of a process that has exited
 *   cancelled   one call returned ERT_OK for it
 *   dropped     it expired, and its process had exited
 *   orphaned    its process exited while it was armed, or before it was started
 *
 * A timer for a process that lives has to be delivered or cancelled, just once, and one for a process that exited at most
 * once. The library's own counts have to agree. No message may come before its time, and the time may not fall.
 */
#define _POSIX_C_SOURCE 200809L
#include <inttypes.h>
#include <pthread.h>
#include <stdatomic.h>
#include <stdio.h>
#include <stdlib.h>
#include <string.h>
#include <time.h>
#include <unistd.h>

#include "ertime.h"

enum { MOST_SHARDS = 16, CANCELLERS = 16, TIMERS = 100000, SLOTS = 512, PROCESSES = 8, RECENT = 1024, BURST = 24 };

/* What became of a timer. Its name and what it was started with are written before `started` of its shard counts it. */
typedef struct {
    ert_timer name;
    uint64_t due; /* it isn't due before, in milliseconds */
    uint32_t dest;
    bool is_bare;
    atomic_uchar taken;
    atomic_uchar cancelled;
} record;

typedef struct {
    ert_shard shard;
    pthread_t thread;
    uint64_t random;
    uint32_t number, from;
    bool has_exited[PROCESSES];
    record *timers;
    atomic_int started;
    int64_t last_time;
    uint64_t put, dropped, expired, taken, cancelled;
} soaker;

typedef struct {
    pthread_t thread;
    uint64_t random;
    uint64_t cancelled;
} canceller;

static ert_hub hub;
static pthread_mutex_t hub_lock = PTHREAD_MUTEX_INITIALIZER;
static int64_t leap; /* of the system clock, under the lock */
static soaker soakers[MOST_SHARDS];
static canceller cancellers[CANCELLERS];
static int shards;
static atomic_bool is_over;
static uint64_t sum_timers, sum_delivered, sum_cancelled, sum_dropped, sum_orphaned;

static void wrong(const char *what, const record *r) {
    fprintf(stderr, "%s: timer %" PRIu32 " %" PRIu32 " %" PRIu64 "\n", what, r ? r->name.wheel : 0, r ? r->name.slot : 0,
        r ? r->name.generation : 0);
    abort();
}

static void must(const char *call, int32_t status) {
    if (status != ERT_OK) {
        fprintf(stderr, "%s: %s\n", call, ert_status_text(status));
        abort();
    }
}

static uint64_t next_random(uint64_t *state) {
    *state ^= *state << 13;
    *state ^= *state >> 7;
    *state ^= *state << 17;
    return *state;
}

static uint64_t below(uint64_t *state, uint64_t limit) {
    return next_random(state) % limit;
}

static int64_t nanoseconds(clockid_t clock) {
    struct timespec t;
    clock_gettime(clock, &t);
    return t.tv_sec * INT64_C(1000000000) + t.tv_nsec;
}

static ert_reading read_clocks(void) {
    ert_reading reading = {nanoseconds(CLOCK_MONOTONIC), nanoseconds(CLOCK_REALTIME) + leap};
    return reading;
}

/* Whoever gets the lock ticks; the system clock is set to another time now and then. */
static void tick(uint64_t *random) {
    if (pthread_mutex_trylock(&hub_lock) == 0) {
        if (below(random, 64) == 0) {
            leap = (int64_t)below(random, 4000000000) - 2000000000;
        }
        ert_reading reading = read_clocks();
        ert_moved moved;
        must("ert_hub_tick", ert_hub_tick(&hub, &reading, below(random, 8) == 0, &moved));
        pthread_mutex_unlock(&hub_lock);
    }
}

static void note_cancelled(record *r, int32_t status, uint64_t *count) {
    if (status == ERT_OK) {
        *count += 1;
        if (atomic_fetch_add(&r->cancelled, 1) != 0) {
            wrong("cancelled twice", r);
        }
    } else if (status != ERT_NO_TIMER) {
        must("cancel", status);
    }
}

/* A recent timer of any shard, or NULL. */
static record *any_timer(uint64_t *random) {
    soaker *s = &soakers[below(random, (uint64_t)shards)];
    int started = atomic_load(&s->started);
    if (started == 0) {
        return NULL;
    }
    uint64_t recent = started < RECENT ? (uint64_t)started : RECENT;
    return &s->timers[(uint64_t)started - 1 - below(random, recent)];
}

static void *cancel_all_the_time(void *argument) {
    canceller *c = argument;
    while (!atomic_load(&is_over)) {
        record *r = any_timer(&c->random);
        if (r != NULL) {
            uint64_t left;
            pthread_mutex_lock(&hub_lock);
            int32_t status = ert_hub_cancel(&hub, &r->name, &left);
            pthread_mutex_unlock(&hub_lock);
            note_cancelled(r, status, &c->cancelled);
        }
    }
    return NULL;
}

static uint64_t read_time(soaker *s) {
    int64_t time;
    must("ert_shard_monotonic_time", ert_shard_monotonic_time(&s->shard, &time));
    if (time < s->last_time) {
        wrong("the time fell", NULL);
    }
    s->last_time = time;
    return (uint64_t)time / 1000000;
}

/* Starts a timer, now and then in the place of a recent one of any shard, which is cancelled; false where the wheel is full. */
static bool start_one(soaker *s) {
    int number = atomic_load(&s->started);
    record *r = &s->timers[number];
    uint64_t after = below(&s->random, below(&s->random, 8) == 0 ? 200 : 4);
    r->dest = s->from + (uint32_t)below(&s->random, PROCESSES);
    r->due = read_time(s) + after;
    r->is_bare = below(&s->random, 4) == 0;
    ert_start how = {.when = (int64_t)after, .msg = (uint64_t)number, .dest = r->dest, .bare = r->is_bare};
    record *old = below(&s->random, 8) == 0 ? any_timer(&s->random) : NULL;
    int32_t status;
    if (old == NULL) {
        status = ert_shard_start(&s->shard, &how, &r->name);
    } else {
        r->name = old->name;
        status = ert_shard_restart(&s->shard, &r->name, &how);
        if (status == ERT_NO_TIMER) {
            return true;
        }
        if (status == ERT_OK) { /* else it is armed as before */
            note_cancelled(old, ERT_OK, &s->cancelled);
        }
    }
    if (status == ERT_FULL) {
        return false;
    }
    must("start", status);
    atomic_store(&s->started, number + 1);
    return true;
}

static void note_taken(soaker *s, const ert_mail *mail, uint64_t now) {
    record *r = &s->timers[mail->msg];
    s->taken += 1;
    if (atomic_fetch_add(&r->taken, 1) != 0) {
        wrong("delivered twice", r);
    }
    if (now < r->due) {
        wrong("delivered early", r);
    }
    if (mail->tag != (r->is_bare ? ERT_BARE : ERT_TIMEOUT)) {
        wrong("a message of another kind", r);
    }
    if (!r->is_bare && memcmp(&mail->timer, &r->name, sizeof r->name) != 0) {
        wrong("a message of another timer", r);
    }
}

/* A process other than the first exits. */
static void exit_one(soaker *s) {
    uint32_t i = 1 + (uint32_t)below(&s->random, PROCESSES - 1);
    uint32_t first;
    must("ert_shard_exit", ert_shard_exit(&s->shard, s->from + i, &first));
    if (first == s->has_exited[i]) {
        wrong("an exit is told wrong", NULL);
    }
    s->has_exited[i] = true;
}

/* A turn by its parts, and now and then a process exits between them. */
static void turn_by_parts(soaker *s, ert_turned *turned) {
    ert_advanced advanced;
    must("ert_shard_advance", ert_shard_advance(&s->shard, &advanced));
    if (advanced.expired > 0 && below(&s->random, 200) == 0) {
        exit_one(s);
    }
    ert_delivered delivered;
    must("ert_shard_deliver", ert_shard_deliver(&s->shard, &delivered));
    ert_turned both = {.to = advanced.to, .expired = advanced.expired, .put = delivered.put, .dropped = delivered.dropped};
    *turned = both;
}

/* A turn in pieces, until there are no more. */
static void turn_by_pieces(soaker *s, ert_turned *turned) {
    uint32_t most = 1 + (uint32_t)below(&s->random, 16);
    ert_turned all = {0, 0, 0, 0, 0};
    ert_turned_some piece;
    do {
        must("ert_shard_turn_some", ert_shard_turn_some(&s->shard, most, &piece));
        if (piece.expired > most || piece.put + piece.dropped > most || piece.to < all.to) {
            wrong("a piece of a turn is told wrong", NULL);
        }
        all.to = piece.to;
        all.expired += piece.expired;
        all.put += piece.put;
        all.dropped += piece.dropped;
    } while (piece.more);
    *turned = all;
}

static void turn_and_take(soaker *s) {
    ert_turned turned;
    switch (below(&s->random, 3)) {
    case 0: turn_by_parts(s, &turned); break;
    case 1: turn_by_pieces(s, &turned); break;
    default: must("ert_shard_turn", ert_shard_turn(&s->shard, &turned));
    }
    s->expired += turned.expired;
    s->put += turned.put;
    s->dropped += turned.dropped;
    for (uint32_t i = 0; i < PROCESSES; i++) {
        ert_mail mail;
        int32_t status;
        while ((status = ert_shard_take(&s->shard, s->from + i, &mail)) == ERT_OK) {
            note_taken(s, &mail, turned.to);
        }
        if (status != (s->has_exited[i] ? ERT_EXITED : ERT_EMPTY)) {
            must("ert_shard_take", status);
        }
    }
}

static void cancel_some(soaker *s) {
    for (int i = 0; i < BURST / 2; i++) {
        record *r = any_timer(&s->random);
        if (r != NULL) {
            uint64_t left;
            note_cancelled(r, ert_shard_cancel(&s->shard, &r->name, &left), &s->cancelled);
        }
    }
}

static void *soak(void *argument) {
    soaker *s = argument;
    while (atomic_load(&s->started) < TIMERS) {
        for (int i = 0; i < BURST && atomic_load(&s->started) < TIMERS && start_one(s); i++) {
        }
        cancel_some(s);
        tick(&s->random);
        turn_and_take(s);
        if (below(&s->random, TIMERS / BURST) == 0) {
            exit_one(s);
        }
    }
    return NULL;
}

static void open_round(uint32_t mode, uint64_t *seed) {
    leap = 0;
    ert_reading first = read_clocks();
    ert_settings settings;
    ert_settings_init(&settings, &first);
    settings.mode = mode;
    settings.schedulers = (uint32_t)shards;
    settings.processes = (uint32_t)shards * PROCESSES;
    settings.callers = (uint32_t)shards + 1;
    settings.slots = SLOTS;
    must("ert_hub_open", ert_hub_open(&hub, &settings));
    for (int i = 0; i < shards; i++) {
        soaker *s = &soakers[i];
        memset(s, 0, sizeof *s);
        uint32_t to;
        must("ert_hub_shard", ert_hub_shard(&hub, &s->shard, PROCESSES));
        must("ert_shard_processes", ert_shard_processes(&s->shard, &s->from, &to));
        s->random = next_random(seed);
        s->timers = calloc(TIMERS, sizeof *s->timers);
        if (s->timers == NULL || to != s->from + PROCESSES) {
            abort();
        }
    }
    memset(cancellers, 0, sizeof cancellers);
    for (int i = 0; i < CANCELLERS; i++) {
        cancellers[i].random = next_random(seed);
    }
    atomic_store(&is_over, false);
}

static void run_threads(void) {
    for (int i = 0; i < shards + CANCELLERS; i++) {
        int failed = i < shards ? pthread_create(&soakers[i].thread, NULL, soak, &soakers[i])
                                : pthread_create(&cancellers[i - shards].thread, NULL, cancel_all_the_time, &cancellers[i - shards]);
        if (failed) {
            abort();
        }
    }
    for (int i = 0; i < shards; i++) {
        pthread_join(soakers[i].thread, NULL);
    }
    atomic_store(&is_over, true);
    for (int i = 0; i < CANCELLERS; i++) {
        pthread_join(cancellers[i].thread, NULL);
    }
}

static int compare_names(const void *a, const void *b) {
    const ert_timer *x = a, *y = b;
    if (x->slot != y->slot) {
        return x->slot < y->slot ? -1 : 1;
    }
    return x->generation < y->generation ? -1 : x->generation > y->generation;
}

/* No name of a wheel came twice. */
static void check_names(const soaker *s) {
    ert_timer *names = malloc(TIMERS * sizeof *names);
    if (names == NULL) {
        abort();
    }
    for (int i = 0; i < TIMERS; i++) {
        names[i] = s->timers[i].name;
    }
    qsort(names, TIMERS, sizeof *names, compare_names);
    for (int i = 1; i < TIMERS; i++) {
        if (names[i].wheel != names[0].wheel || compare_names(&names[i - 1], &names[i]) == 0) {
            wrong("a name came twice", NULL);
        }
    }
    free(names);
}

/* How each timer of a shard ended; answers how many of them were cancelled. */
static uint64_t check_ends(soaker *s) {
    uint64_t cancelled = 0;
    for (int i = 0; i < TIMERS; i++) {
        record *r = &s->timers[i];
        int ends = atomic_load(&r->taken) + atomic_load(&r->cancelled);
        if (ends > 1 || (ends == 0 && !s->has_exited[r->dest - s->from])) {
            wrong(ends == 0 ? "lost" : "ended twice", r);
        }
        uint64_t left;
        if (ert_shard_read(&s->shard, &r->name, &left) != ERT_NO_TIMER) {
            wrong("still armed", r);
        }
        cancelled += atomic_load(&r->cancelled);
    }
    return cancelled;
}

static void close_round(void) {
    uint64_t counted = 0, cancelled = 0;
    for (int i = 0; i < CANCELLERS; i++) {
        counted += cancellers[i].cancelled;
    }
    ert_reading reading = read_clocks();
    reading.mono += INT64_C(10000000000);
    reading.sys += INT64_C(10000000000);
    ert_moved moved;
    must("ert_hub_tick", ert_hub_tick(&hub, &reading, 0, &moved));
    for (int i = 0; i < shards; i++) {
        soaker *s = &soakers[i];
        turn_and_take(s);
        uint64_t here = check_ends(s);
        check_names(s);
        if (s->expired != s->put + s->dropped || s->taken > s->put || s->expired + here > TIMERS) {
            wrong("the counts of a shard disagree", NULL);
        }
        counted += s->cancelled;
        cancelled += here;
        sum_timers += TIMERS;
        sum_delivered += s->put;
        sum_dropped += s->dropped;
        sum_orphaned += TIMERS - s->expired - here;
    }
    if (counted != cancelled) {
        wrong("the counts of cancels disagree", NULL);
    }
    sum_cancelled += cancelled;
    for (int i = 0; i < shards; i++) {
        must("ert_shard_close", ert_shard_close(&soakers[i].shard));
        free(soakers[i].timers);
    }
    must("ert_hub_close", ert_hub_close(&hub));
}

int main(int count, char **words) {
    int64_t seconds = count > 1 ? atoll(words[1]) : 10;
    uint64_t seed = count > 2 ? strtoull(words[2], NULL, 10) : 1;
    seed = seed * UINT64_C(0x9e3779b97f4a7c15) | 1;
    long processors = sysconf(_SC_NPROCESSORS_ONLN);
    shards = processors < 2 ? 2 : processors > MOST_SHARDS ? MOST_SHARDS : (int)processors;
    int64_t end = nanoseconds(CLOCK_MONOTONIC) + seconds * INT64_C(1000000000);
    uint32_t rounds = 0;
    do {
        open_round(rounds % 3, &seed);
        run_threads();
        close_round();
        rounds += 1;
    } while (rounds < 3 || nanoseconds(CLOCK_MONOTONIC) < end);
    printf("%" PRIu32 " rounds of %d shards: %" PRIu64 " timers, delivered %" PRIu64 ", cancelled %" PRIu64 ", dropped %" PRIu64
           ", orphaned %" PRIu64 "\n",
        rounds, shards, sum_timers, sum_delivered, sum_cancelled, sum_dropped, sum_orphaned);
    return EXIT_SUCCESS;
}
