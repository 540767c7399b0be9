/*
 * What the clock tells. Monotonic time and system time are read without the lock, unless that takes time (nif_cost).
 */
#include "ertime_nif.h"

/* monotonic_time(Clock) -> integer() | closed | badarg */
ERL_NIF_TERM nif_monotonic_time(ErlNifEnv *env, int argc, const ERL_NIF_TERM argv[]) {
    clock_resource *clock;
    if (!get_clock(env, argv[0], &clock)) {
        return atom_badarg;
    }
    if (atomic_load_explicit(&clock->state->cost, memory_order_relaxed) != 0 && !pay(env, clock->state)) {
        return elsewhere(env, "monotonic_time", nif_monotonic_time, argc, argv);
    }
    if (!is_open(clock->state)) {
        return atom_closed;
    }
    return enif_make_int64(env, atomic_load_explicit(&clock->state->now, memory_order_acquire));
}

/* system_time(Clock) -> integer() | closed | badarg */
ERL_NIF_TERM nif_system_time(ErlNifEnv *env, int argc, const ERL_NIF_TERM argv[]) {
    clock_resource *clock;
    if (!get_clock(env, argv[0], &clock)) {
        return atom_badarg;
    }
    if (atomic_load_explicit(&clock->state->cost, memory_order_relaxed) != 0 && !pay(env, clock->state)) {
        return elsewhere(env, "system_time", nif_system_time, argc, argv);
    }
    if (!is_open(clock->state)) {
        return atom_closed;
    }
    return enif_make_int64(env, atomic_load_explicit(&clock->state->system, memory_order_acquire));
}

ERL_NIF_TERM of_offset_state(uint32_t it) {
    return it == ERT_PRELIMINARY ? atom_preliminary : it == ERT_FINAL ? atom_final : atom_volatile;
}

/* time_offset(Clock) -> {integer(), preliminary | final | volatile} | closed | badarg */
ERL_NIF_TERM nif_time_offset(ErlNifEnv *env, int argc, const ERL_NIF_TERM argv[]) {
    clock_resource *clock;
    if (!get_clock(env, argv[0], &clock)) {
        return atom_badarg;
    }
    state *s = clock->state;
    ert_offset offset = {0, 0};
    if (!state_enter(s)) {
        return elsewhere(env, "time_offset", nif_time_offset, argc, argv);
    }
    int32_t status = is_open(s) ? ert_world_time_offset(&s->world, &offset) : ERT_CLOSED;
    state_leave(s);
    if (status != ERT_OK) {
        return of_status(status);
    }
    return enif_make_tuple2(env, enif_make_int64(env, offset.offset), of_offset_state(offset.state));
}

/* os_time(Clock) -> {Mono, Sys} | closed | badarg: what the OS clocks tell */
ERL_NIF_TERM nif_os_time(ErlNifEnv *env, int argc, const ERL_NIF_TERM argv[]) {
    clock_resource *clock;
    if (!get_clock(env, argv[0], &clock)) {
        return atom_badarg;
    }
    state *s = clock->state;
    if (!state_enter(s)) {
        return elsewhere(env, "os_time", nif_os_time, argc, argv);
    }
    bool open = is_open(s);
    ert_reading os = s->os;
    state_leave(s);
    if (!open) {
        return atom_closed;
    }
    return enif_make_tuple2(env, enif_make_int64(env, os.mono), enif_make_int64(env, os.sys));
}

static ERL_NIF_TERM of_settings(ErlNifEnv *env, const ert_settings *it, int64_t drift) {
    return enif_make_tuple5(env, enif_make_uint(env, it->mode), enif_make_uint(env, it->correction),
                            enif_make_int64(env, it->start), enif_make_uint(env, it->slots * it->schedulers),
                            enif_make_int64(env, drift));
}

/* settings(Clock) -> {Mode, Correction, Start, Slots, Drift} | closed | badarg */
ERL_NIF_TERM nif_settings(ErlNifEnv *env, int argc, const ERL_NIF_TERM argv[]) {
    clock_resource *clock;
    if (!get_clock(env, argv[0], &clock)) {
        return atom_badarg;
    }
    state *s = clock->state;
    if (!state_enter(s)) {
        return elsewhere(env, "settings", nif_settings, argc, argv);
    }
    bool open = is_open(s);
    int64_t drift = s->drift;
    state_leave(s);
    return open ? of_settings(env, &s->settings, drift) : atom_closed;
}

static ERL_NIF_TERM pair(ErlNifEnv *env, int64_t first, int64_t second) {
    return enif_make_tuple2(env, enif_make_int64(env, first), enif_make_int64(env, second));
}

static ERL_NIF_TERM info_of(ErlNifEnv *env, state *s) {
    ert_offset offset = {0, 0};
    ert_world_time_offset(&s->world, &offset);
    const ERL_NIF_TERM all[] = {
        of_settings(env, &s->settings, s->drift),
        pair(env, s->os.mono, s->os.sys),
        pair(env, atomic_load(&s->now), atomic_load(&s->system)),
        enif_make_tuple2(env, enif_make_int64(env, offset.offset), of_offset_state(offset.state)),
        list_members(env, s),
        list_timers(env, s),
    };
    return enif_make_tuple_from_array(env, all, sizeof all / sizeof *all);
}

/*
 * info(Clock) -> {settings(), {OsMono, OsSys}, {Monotonic, System}, {Offset, State}, Members, Timers} | closed | badarg
 *
 * All of one moment. On a dirty scheduler.
 */
ERL_NIF_TERM nif_info(ErlNifEnv *env, int argc, const ERL_NIF_TERM argv[]) {
    clock_resource *clock;
    if (!get_clock(env, argv[0], &clock)) {
        return atom_badarg;
    }
    state *s = clock->state;
    if (!state_enter(s)) {
        return elsewhere(env, "info", nif_info, argc, argv);
    }
    ERL_NIF_TERM all = atom_closed;
    if (is_open(s)) {
        state_begin(s);
        all = info_of(env, s);
        state_end(s);
    }
    state_leave(s);
    return all;
}
