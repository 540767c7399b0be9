/*
 * The processes that a clock knows: they have timers or monitors, or use it. They stand in a table by pid, and a monitor
 * of each tells when it exits: then its timers are cancelled.
 *
 * A scheduler calls process_down, which settles some at once and leaves many to the thread. Nobody sees the difference:
 * a receiver that is `gone` counts no longer, and each call that depends on it looks.
 */
#include "ertime_nif.h"

enum { PIECES = 8 /* that process_down settles */ };

/* --- the table ------------------------------------------------------------------------------------------------ */

bool table_open(table *t) {
    t->segments[0] = enif_alloc(FIRST_BUCKETS * sizeof(receiver *));
    if (t->segments[0] == NULL) {
        return false;
    }
    for (uint32_t i = 0; i < FIRST_BUCKETS; i++) {
        t->segments[0][i] = NULL;
    }
    t->buckets = FIRST_BUCKETS;
    t->mask = FIRST_BUCKETS - 1;
    return true;
}

void table_close(table *t) {
    for (unsigned i = 0; i < SEGMENTS; i++) {
        enif_free(t->segments[i]);
    }
}

static receiver **place_of(const table *t, uint32_t index) {
    uint32_t begin = 0, segment = 0;
    if (index >= FIRST_BUCKETS) {
        for (begin = FIRST_BUCKETS, segment = 1; index >= 2 * begin; begin *= 2) {
            segment += 1;
        }
    }
    return &t->segments[segment][index - begin];
}

void walk_begin(walk *it, const table *t) {
    *it = (walk){.table = t};
}

/* The next receiver, or NULL. */
receiver *walk_next(walk *it) {
    while (it->next == NULL && it->index < it->table->buckets) {
        if (it->index >= 2 * it->begin && it->index >= FIRST_BUCKETS) {
            it->begin = it->index;
            it->segment += 1;
        }
        it->next = it->table->segments[it->segment][it->index - it->begin];
        it->index += 1;
    }
    receiver *found = it->next;
    if (found != NULL) {
        it->next = found->next;
    }
    return found;
}

/* Which bucket a process is in. */
static uint32_t index_of(const table *t, const ErlNifPid *pid) {
    uint32_t hash = (uint32_t)(((uint64_t)pid->pid * UINT64_C(0x9E3779B97F4A7C15)) >> 32);
    uint32_t index = hash & t->mask;
    return index < t->buckets ? index : index & (t->mask >> 1);
}

/* Adds a bucket, which gets its share of one that is there. Where there is no memory it is left at that. */
static void table_grow(table *t) {
    uint32_t added = t->buckets, segment = 0;
    for (uint32_t begin = FIRST_BUCKETS; begin <= added; begin *= 2) {
        segment += 1;
    }
    if (segment == SEGMENTS) {
        return;
    }
    if (t->segments[segment] == NULL) {
        t->segments[segment] = enif_alloc((size_t)added * sizeof(receiver *));
        if (t->segments[segment] == NULL) {
            return;
        }
    }
    if (added > t->mask) {
        t->mask = 2 * t->mask + 1;
    }
    receiver **kept = place_of(t, added & (t->mask >> 1));
    receiver *shared = *kept;
    receiver **moved = place_of(t, added);
    t->buckets += 1;
    while (shared != NULL) {
        receiver ***into = index_of(t, &shared->pid) == added ? &moved : &kept;
        **into = shared;
        *into = &shared->next;
        shared = shared->next;
    }
    *kept = NULL;
    *moved = NULL;
}

static void table_add(table *t, receiver *it) {
    if (t->count >= t->buckets) {
        table_grow(t);
    }
    receiver **bucket = place_of(t, index_of(t, &it->pid));
    it->next = *bucket;
    *bucket = it;
    t->count += 1;
}

static void table_remove(table *t, receiver *it) {
    receiver **at = place_of(t, index_of(t, &it->pid));
    while (*at != it) {
        at = &(*at)->next;
    }
    *at = it->next;
    t->count -= 1;
}

/* --- receivers ------------------------------------------------------------------------------------------------ */

void receiver_init(receiver *it) {
    ring_init(&it->timers);
    ring_init(&it->watches);
}

/* The record of a process that hasn't exited, or NULL. Under the lock. */
receiver *receiver_find(const state *s, const ErlNifPid *pid) {
    receiver *it = *place_of(&s->receivers, index_of(&s->receivers, pid));
    /* Local pids are equal where their words are. */
    while (it != NULL && (it->pid.pid != pid->pid || atomic_load_explicit(&it->gone, memory_order_relaxed))) {
        it = it->next;
    }
    return it;
}

/* The record of a process, made where there is none: ERT_OK, or ERT_EXITED or ERT_NO_MEMORY. Under the lock. */
int32_t receiver_of(ErlNifEnv *env, clock_resource *clock, const ErlNifPid *pid, receiver **found) {
    state *s = clock->state;
    receiver *it = receiver_find(s, pid);
    if (it == NULL) {
        it = enif_alloc(sizeof *it);
        if (it == NULL) {
            return ERT_NO_MEMORY;
        }
        *it = (receiver){.pid = *pid, .number = s->receivers_made};
        receiver_init(it);
        if (enif_monitor_process(env, clock, pid, &it->monitor) != 0) {
            enif_free(it);
            return ERT_EXITED;
        }
        table_add(&s->receivers, it);
        s->receivers_made += 1;
    }
    *found = it;
    return ERT_OK;
}

void settled_init(settled *done) {
    ring_init(&done->timers);
    ring_init(&done->watches);
}

/* Lets go of timers and monitors that were taken off their lists. Without the lock. */
void settled_finish(settled *done) {
    while (!ring_is_empty(&done->timers)) {
        timer *it = OF_RING(done->timers.next, timer, place);
        ring_remove(&it->place);
        timer_finish(it);
    }
    while (!ring_is_empty(&done->watches)) {
        watch *it = OF_RING(done->watches.next, watch, own);
        ring_remove(&it->own);
        enif_release_resource(it);
    }
}

static void take_timer(settled *done, timer *it) {
    timer_unlist(it);
    ring_add(&done->timers, &it->place);
}

static void take_watch(settled *done, watch *it) {
    watch_unlist(it);
    ring_add(&done->watches, &it->own);
}

/* Takes all timers and monitors of a receiver of a state that is closed. */
void receiver_empty(receiver *from, settled *done) {
    while (!ring_is_empty(&from->timers)) {
        take_timer(done, OF_RING(from->timers.next, timer, place));
    }
    while (!ring_is_empty(&from->watches)) {
        take_watch(done, OF_RING(from->watches.next, watch, own));
    }
}

/* --- processes that have exited ------------------------------------------------------------------------------- */

/* A timer of such a process is cancelled. One that has expired goes on, and its message to nobody. */
static void settle_timer(state *s, timer *it, settled *done) {
    uint64_t left;
    if (ert_world_cancel(&s->world, &it->name, &left) == ERT_OK) {
        take_timer(done, it);
    } else {
        timer_unlist(it);
        timer_list(s, &s->others, it);
    }
}

/* Settles timers and monitors of processes that have exited, BATCH at most. Under the lock. */
static void gone_take(state *s, settled *done) {
    for (unsigned i = 0; i < BATCH && is_open(s) && s->gone != NULL; i++) {
        receiver *it = s->gone;
        if (!ring_is_empty(&it->timers)) {
            settle_timer(s, OF_RING(it->timers.next, timer, place), done);
        } else if (!ring_is_empty(&it->watches)) {
            take_watch(done, OF_RING(it->watches.next, watch, own));
        } else {
            s->gone = it->next_gone;
            table_remove(&s->receivers, it);
            enif_free(it);
        }
    }
}

/*
 * Takes the lock, as state_enter does, and waits for nobody who keeps a state that is closed: whoever closed it settles all,
 * and may be the very thread that would wait.
 */
static bool gone_enter(state *s) {
    enif_mutex_lock(s->lock);
    while (s->busy && is_open(s)) {
        if (on_scheduler()) {
            enif_mutex_unlock(s->lock);
            return false;
        }
        enif_cond_wait(s->rest, s->lock);
    }
    return true;
}

/* Settles some. Answers whether that is all. */
static bool gone_piece(state *s) {
    settled done;
    settled_init(&done);
    if (!gone_enter(s)) {
        return false;
    }
    gone_take(s, &done);
    bool all = !is_open(s) || s->gone == NULL;
    state_leave(s);
    settled_finish(&done);
    return all;
}

/* Settles all. Not on a scheduler. */
void gone_finish(state *s) {
    while (!gone_piece(s)) {
    }
}

/* A process has exited. */
void process_down(ErlNifEnv *env, void *object, ErlNifPid *pid, ErlNifMonitor *monitor) {
    UNUSED(env);
    UNUSED(monitor);
    clock_resource *clock = object;
    state *s = clock->state;
    enif_mutex_lock(s->lock);
    receiver *it = is_open(s) ? receiver_find(s, pid) : NULL;
    if (it != NULL) {
        atomic_store_explicit(&it->gone, true, memory_order_relaxed);
        s->armed -= it->count;
        it->next_gone = s->gone;
        s->gone = it;
    }
    enif_mutex_unlock(s->lock);
    bool all = it == NULL;
    for (unsigned i = 0; !all && i < PIECES; i++) {
        all = gone_piece(s);
    }
    if (!all) {
        background_add(s);
    }
}
