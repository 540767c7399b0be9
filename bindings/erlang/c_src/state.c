/*
 * The state of a clock: it is opened, taken by one thread at a time, and closed.
 */
#include "ertime_nif.h"
#include <string.h>

enum {
    WHEEL_SLOTS = 16384,           /* the most slots of a wheel: a start on a full one looks at each */
    MOST_SLOTS = MOST_WHEELS * WHEEL_SLOTS, /* the most slots of a clock */
    SLOTS_AT_ONCE = 16384,         /* whose memory a scheduler gives back */
    FAULT_WHEELS = 4               /* of a clock with faults */
};

/* --- who has it ----------------------------------------------------------------------------------------------- */

/* Waits until nobody has the state for long, with the lock, and keeps that. A scheduler doesn't wait: it lets the lock go. */
bool state_wait(state *s) {
    if (on_scheduler()) {
        enif_mutex_unlock(s->lock);
        return false;
    }
    while (s->busy) {
        enif_cond_wait(s->rest, s->lock);
    }
    return true;
}

/*
 * Keeps the state for long, without the lock that the thread has. Until the end others only read the lists, and mark
 * receivers that have exited; so does this thread, which alone calls the service.
 */
void state_begin(state *s) {
    s->busy = true;
    enif_mutex_unlock(s->lock);
}

/* The end of that. The thread has the lock again. */
void state_end(state *s) {
    enif_mutex_lock(s->lock);
    s->busy = false;
    enif_cond_broadcast(s->rest);
}

/* --- opening -------------------------------------------------------------------------------------------------- */

/* Tells the atomic words what the service tells. */
void tell_words(state *s) {
    int64_t now = 0, system = 0;
    ert_world_monotonic_time(&s->world, &now);
    ert_world_system_time(&s->world, &system);
    atomic_store(&s->now, now);
    atomic_store(&s->system, system);
}

static void state_free(state *s) {
    table_close(&s->receivers);
    if (s->rest != NULL) {
        enif_cond_destroy(s->rest);
    }
    if (s->lock != NULL) {
        enif_mutex_destroy(s->lock);
    }
    enif_free(s);
}

void state_release(state *s) {
    if (atomic_fetch_sub(&s->refs, 1) == 1) {
        state_free(s);
    }
}

static int32_t state_open(state *s) {
    uint32_t first;
    s->lock = enif_mutex_create((char *)"ertime");
    s->rest = enif_cond_create((char *)"ertime");
    if (s->lock == NULL || s->rest == NULL || !table_open(&s->receivers)) {
        return ERT_NO_MEMORY;
    }
    int32_t status = ert_world_open(&s->world, &s->settings);
    if (status != ERT_OK) {
        return status;
    }
    receiver_init(&s->others);
    ring_init(&s->watches);
    ert_offset offset = {0, 0};
    ert_world_exit(&s->world, EXITED, &first);
    ert_world_time_offset(&s->world, &offset);
    s->offset = offset.offset;
    tell_words(s);
    atomic_store(&s->open, true);
    return ERT_OK;
}

/* So many wheels, or fewer for so few slots or more for so many, of which each has the same part. */
static uint32_t wheels_for(uint32_t slots, uint32_t least) {
    for (uint32_t wheels = FAULT_WHEELS; wheels > least; wheels--) {
        if (slots % wheels == 0) {
            return wheels;
        }
    }
    return least;
}

/*
 * open(Mode, Correction, Start, Mono, Sys, Slots, Drift) -> Clock | badarg | no_memory
 * open(Mode, Correction, Start, Mono, Sys, Slots, Drift, Spread) for a clock with faults: it has several wheels where the
 * slots can be shared out evenly, and with `true` each receiver has one of them for its timers
 */
ERL_NIF_TERM nif_open(ErlNifEnv *env, int argc, const ERL_NIF_TERM argv[]) {
    unsigned mode, correction, slots;
    int64_t start, mono, sys, drift;
    if (!enif_get_uint(env, argv[0], &mode) || !enif_get_uint(env, argv[1], &correction) || !get_int64(env, argv[2], &start) ||
        !get_int64(env, argv[3], &mono) || !get_int64(env, argv[4], &sys) || !enif_get_uint(env, argv[5], &slots) ||
        !get_int64(env, argv[6], &drift) || !IS_DRIFT(drift) || slots < 1 || slots > MOST_SLOTS) {
        return atom_badarg;
    }
    state *s = enif_alloc(sizeof *s);
    if (s == NULL) {
        return atom_no_memory;
    }
    memset(s, 0, sizeof *s);
    atomic_init(&s->refs, 1);
    uint32_t wheels = (slots + WHEEL_SLOTS - 1) / WHEEL_SLOTS;
    if (argc == 8) {
        wheels = wheels_for(slots, wheels);
        s->spread = enif_is_identical(argv[7], atom_true);
    }
    s->settings = (ert_settings){
        .size = sizeof s->settings,
        .mode = mode,
        .correction = correction,
        .schedulers = wheels,
        .processes = PROCESSES,
        .slots = (slots + wheels - 1) / wheels,
        .callers = 1,
        .looks = 64, /* no other thread cancels timers, so that few looks are needed */
        .start = start,
        .first = {mono, sys},
    };
    s->os = s->settings.first;
    s->drift = drift;
    s->apart = drift != 0;
    int32_t status = state_open(s);
    clock_resource *clock = status == ERT_OK ? enif_alloc_resource(clock_type, sizeof *clock) : NULL;
    if (clock == NULL) {
        ert_world_close(&s->world);
        state_free(s);
        return status == ERT_OK ? atom_no_memory : of_status(status);
    }
    clock->state = s;
    ERL_NIF_TERM term = enif_make_resource(env, clock);
    enif_release_resource(clock);
    return term;
}

/* --- closing -------------------------------------------------------------------------------------------------- */

/*
 * Frees what a closed state has. Nobody else touches it: all others look first whether it is open, or wait while it is
 * kept. `clock` is its resource, unless that is gone already. The thread keeps the state, and doesn't from here on.
 */
void state_dismantle(ErlNifEnv *env, state *s, clock_resource *clock) {
    settled done;
    settled_init(&done);
    timers_stand_still(s);
    ert_world_close(&s->world);
    receiver_empty(&s->others, &done);
    walk all;
    walk_begin(&all, &s->receivers);
    for (receiver *it = walk_next(&all); it != NULL; it = walk_next(&all)) {
        receiver_empty(it, &done);
        if (clock != NULL) {
            enif_demonitor_process(env, clock, &it->monitor);
        }
        enif_free(it);
    }
    state_end(s);
    state_leave(s);
    settled_finish(&done);
    groups_retire(s);
}

/*
 * close(Clock) -> [{Left, To, Timer}] | false | badarg: of those who wait with a timeout of the clock, how many milliseconds
 * were left. It is false where the clock was closed.
 */
ERL_NIF_TERM nif_close(ErlNifEnv *env, int argc, const ERL_NIF_TERM argv[]) {
    clock_resource *clock;
    if (!get_clock(env, argv[0], &clock)) {
        return atom_badarg;
    }
    state *s = clock->state;
    if (!state_enter(s)) {
        return elsewhere(env, "close", nif_close, argc, argv);
    }
    if (!atomic_exchange(&s->open, false)) {
        state_leave(s);
        return atom_false;
    }
    state_begin(s);
    ERL_NIF_TERM asleep = list_asleep(env, s);
    state_dismantle(env, s, clock);
    return asleep;
}

/* Nothing refers to a clock any more. What would take a scheduler long is left to the thread. */
void clock_gone(ErlNifEnv *env, void *object) {
    clock_resource *clock = object;
    state *s = clock->state;
    enif_mutex_lock(s->lock);
    bool was_open = atomic_exchange(&s->open, false);
    uint32_t slots = s->settings.schedulers * s->settings.slots;
    bool is_long = s->armed > FEW || s->receivers.count > FEW || s->gone != NULL || slots > SLOTS_AT_ONCE;
    s->abandoned = was_open && is_long;
    if (was_open) {
        state_begin(s);
    } else {
        state_leave(s);
    }
    if (was_open && is_long) {
        background_add(s);
    } else if (was_open) {
        state_dismantle(env, s, NULL);
    }
    state_release(s);
}
