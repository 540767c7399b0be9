/*
 * The clock is moved by hand: its OS clocks run on, leap and drift, and its time offset is finalized.
 */
#include "ertime_nif.h"

/* --- by what it is moved -------------------------------------------------------------------------------------- */

/* Whether there may be so much to do that it isn't done on a scheduler. What a closed clock has is with whoever closed it. */
bool is_much(const state *s) {
    return is_open(s) && (s->armed > FEW || s->watched > BATCH || s->gone != NULL);
}

/*
 * Takes the state to move the clock, with nothing left of processes that have exited. Answers false where the call has
 * to go elsewhere.
 */
bool enter_to_move(state *s) {
    while (state_enter(s)) {
        if (!is_much(s)) {
            return true;
        }
        bool may_stay = !on_scheduler();
        if (may_stay && s->gone == NULL) {
            return true;
        }
        state_leave(s);
        if (!may_stay) {
            return false;
        }
        gone_finish(s);
    }
    return false;
}

/* Ticks with what the OS clocks tell. Where the service refuses, they are as they were. */
static int32_t tick(state *s, ert_reading os, bool force) {
    ert_moved moved = {0, 0, 0};
    int32_t status = ert_world_tick(&s->world, &os, force, &moved);
    if (status == ERT_OK) {
        s->os = os;
        tell_words(s);
        if (moved.shifted != 0) {
            change_note(s, false);
        }
    }
    return status;
}

/* Lets the OS clocks run on by `step`, which is at most LONGEST_STEP, and ticks. */
int32_t run_on(state *s, int64_t step) {
    int64_t whole = step / SECOND, part = step % SECOND;
    int64_t rest = part * s->drift + s->drift_rest;
    ert_reading os = {s->os.mono + step, s->os.sys + step + whole * s->drift + rest / SECOND};
    int32_t status = tick(s, os, false);
    if (status == ERT_OK) {
        s->drift_rest = rest % SECOND;
    }
    return status;
}

/* Ends a move under the lock, and tells who has to be told. */
void leave_and_tell(ErlNifEnv *env, state *s) {
    change news;
    change_take(s, &news);
    state_leave(s);
    change_send(env, s, &news);
}

/* --- the other moves ------------------------------------------------------------------------------------------ */

/* run(Clock, Nanoseconds) -> ok | closed | badarg: the OS clocks run so long, and nothing is sent but changes of the offset */
ERL_NIF_TERM nif_run(ErlNifEnv *env, int argc, const ERL_NIF_TERM argv[]) {
    clock_resource *clock;
    int64_t step;
    if (!get_clock(env, argv[0], &clock) || !get_int64(env, argv[1], &step) || step < 0 || step > LONGEST_STEP) {
        return atom_badarg;
    }
    state *s = clock->state;
    if (!enter_to_move(s)) {
        return elsewhere(env, "run", nif_run, argc, argv);
    }
    int32_t status = is_open(s) ? run_on(s, step) : ERT_CLOSED;
    leave_and_tell(env, s);
    return of_status(status);
}

/* Ticks with a reading that may be far from the one before. The state was entered, and is left. */
static ERL_NIF_TERM tick_apart(ErlNifEnv *env, state *s, ert_reading os, bool check) {
    int32_t status = is_open(s) ? tick(s, os, check) : ERT_CLOSED;
    if (status == ERT_OK) {
        s->apart = true;
    }
    leave_and_tell(env, s);
    return of_status(status);
}

/* leap(Clock, Nanoseconds, Check) -> ok | closed | badarg: the OS system clock leaps, and Check says whether it is checked */
ERL_NIF_TERM nif_leap(ErlNifEnv *env, int argc, const ERL_NIF_TERM argv[]) {
    clock_resource *clock;
    int64_t by;
    if (!get_clock(env, argv[0], &clock) || !get_int64(env, argv[1], &by) || by > LONGEST_STEP || by < -LONGEST_STEP) {
        return atom_badarg;
    }
    state *s = clock->state;
    if (!enter_to_move(s)) {
        return elsewhere(env, "leap", nif_leap, argc, argv);
    }
    return tick_apart(env, s, (ert_reading){s->os.mono, s->os.sys + by}, enif_is_identical(argv[2], atom_true));
}

/* tick(Clock, Mono, Sys, Check) -> ok | closed | badarg: the clock takes just this reading, and nothing is sent but changes */
ERL_NIF_TERM nif_tick(ErlNifEnv *env, int argc, const ERL_NIF_TERM argv[]) {
    clock_resource *clock;
    ert_reading os;
    if (!get_clock(env, argv[0], &clock) || !get_int64(env, argv[1], &os.mono) || !get_int64(env, argv[2], &os.sys)) {
        return atom_badarg;
    }
    state *s = clock->state;
    if (!enter_to_move(s)) {
        return elsewhere(env, "tick", nif_tick, argc, argv);
    }
    return tick_apart(env, s, os, enif_is_identical(argv[3], atom_true));
}

/* drift(Clock, PartsPerBillion) -> ok | closed | badarg */
ERL_NIF_TERM nif_drift(ErlNifEnv *env, int argc, const ERL_NIF_TERM argv[]) {
    clock_resource *clock;
    int64_t drift;
    if (!get_clock(env, argv[0], &clock) || !get_int64(env, argv[1], &drift) || !IS_DRIFT(drift)) {
        return atom_badarg;
    }
    state *s = clock->state;
    if (!state_enter(s)) {
        return elsewhere(env, "drift", nif_drift, argc, argv);
    }
    bool open = is_open(s);
    s->drift = drift;
    s->drift_rest = 0;
    s->apart = s->apart || drift != 0;
    state_leave(s);
    return open ? atom_ok : atom_closed;
}

/*
 * finalize(Clock) -> preliminary | final | volatile | closed | badarg: the state before. Where that is preliminary, each
 * monitor is told the offset, also where it stays.
 */
ERL_NIF_TERM nif_finalize(ErlNifEnv *env, int argc, const ERL_NIF_TERM argv[]) {
    clock_resource *clock;
    if (!get_clock(env, argv[0], &clock)) {
        return atom_badarg;
    }
    state *s = clock->state;
    if (!enter_to_move(s)) {
        return elsewhere(env, "finalize", nif_finalize, argc, argv);
    }
    ert_moved moved;
    uint32_t before = ERT_FINAL;
    int32_t status = is_open(s) ? ert_world_finalize(&s->world, &s->os, &before, &moved) : ERT_CLOSED;
    if (status == ERT_OK) {
        tell_words(s);
        if (before == ERT_PRELIMINARY) {
            change_note(s, true);
        }
    }
    leave_and_tell(env, s);
    return status == ERT_OK ? of_offset_state(before) : of_status(status);
}
