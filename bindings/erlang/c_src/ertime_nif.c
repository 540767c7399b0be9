/*
 * The NIF of the package ertime: clocks that are moved by hand, over the C library (ertime.h).
 *
 * A clock is a resource: a service behind a lock, which any process calls on its own scheduler. It is freed by
 * close/1, or when nothing refers to it. Timers and monitors are resources too, so that what Erlang sees are real
 * references. They count the state of the clock, and not the clock itself, so nothing refers to itself.
 *
 * To the library all living receivers are one process, ALIVE: the message of a timer is the address of its record
 * here, which knows the receiver. The receivers' timers are listed by process, and a monitor of the process cancels
 * them when it exits. A timer for a process that is dead at the start goes to the process EXITED.
 *
 * Who has the state. A call takes the lock (state_enter), and what it does with it is short: at most BATCH timers or
 * monitors. Where there is more to do the call goes on on a dirty scheduler (elsewhere), and keeps the state as `busy`
 * (state_begin) without the lock. Another call that finds it so goes to a dirty scheduler too, and waits there. So no
 * scheduler waits for more than a short piece of work. The callbacks, which the emulator makes on its schedulers and
 * which can't go elsewhere, only mark what is to be done, do a little of it, and leave the rest to a thread.
 *
 * Without the lock is done: whatever may run a destructor (releasing a resource, freeing an environment, which may
 * hold the last reference to this very clock), and sending, which takes locks of the emulator that one of its
 * callbacks may hold. A resource is let go by whoever took it off its list.
 *
 * | file | what it has |
 * |---|---|
 * | state.c | a clock is opened, taken by one thread at a time, and closed |
 * | receivers.c | the table of processes, and what happens when one exits |
 * | background.c | the thread for what would hold a scheduler too long |
 * | messages.c, timers.c | the messages of timers; timers are started, cancelled and read |
 * | monitors.c | monitors of the time offset |
 * | times.c, members.c | what the clock tells, who uses it, and what is armed |
 * | step.c, moving.c | the clock goes on from deadline to deadline; it is moved by hand |
 * | faults.c | what else may happen, for tests: the order of timers that are due at once, lateness, time that code takes |
 */
#include "ertime_nif.h"

ErlNifResourceType *clock_type, *timer_type, *watch_type;

ERL_NIF_TERM atom_ok, atom_true, atom_false, atom_closed, atom_badarg, atom_system_limit, atom_timeout, atom_change,
    atom_time_offset, atom_clock_service, atom_preliminary, atom_final, atom_volatile, atom_no_memory, atom_after,
    atom_sent;

ERL_NIF_TERM of_status(int32_t status) {
    switch (status) {
    case ERT_OK:
        return atom_ok;
    case ERT_CLOSED:
        return atom_closed;
    case ERT_NO_MEMORY:
        return atom_no_memory;
    case ERT_FULL:
        return atom_system_limit;
    default:
        return atom_badarg;
    }
}

static int load(ErlNifEnv *env, void **private, ERL_NIF_TERM info) {
    UNUSED(private);
    UNUSED(info);
    ErlNifResourceFlags flags = ERL_NIF_RT_CREATE | ERL_NIF_RT_TAKEOVER;
    ErlNifResourceTypeInit of_clock = {.dtor = clock_gone, .down = process_down};
    ErlNifResourceTypeInit of_timer = {.dtor = timer_gone};
    ErlNifResourceTypeInit of_watch = {.dtor = watch_gone};
    clock_type = enif_open_resource_type_x(env, "ertime_clock", &of_clock, flags, NULL);
    timer_type = enif_open_resource_type_x(env, "ertime_timer", &of_timer, flags, NULL);
    watch_type = enif_open_resource_type_x(env, "ertime_monitor", &of_watch, flags, NULL);
    atom_ok = enif_make_atom(env, "ok");
    atom_true = enif_make_atom(env, "true");
    atom_false = enif_make_atom(env, "false");
    atom_closed = enif_make_atom(env, "closed");
    atom_badarg = enif_make_atom(env, "badarg");
    atom_system_limit = enif_make_atom(env, "system_limit");
    atom_no_memory = enif_make_atom(env, "no_memory");
    atom_after = enif_make_atom(env, "$ertime_after");
    atom_sent = enif_make_atom(env, "sent");
    atom_timeout = enif_make_atom(env, "timeout");
    atom_change = enif_make_atom(env, "CHANGE");
    atom_time_offset = enif_make_atom(env, "time_offset");
    atom_clock_service = enif_make_atom(env, "clock_service");
    atom_preliminary = enif_make_atom(env, "preliminary");
    atom_final = enif_make_atom(env, "final");
    atom_volatile = enif_make_atom(env, "volatile");
    return clock_type == NULL || timer_type == NULL || watch_type == NULL || !background_load();
}

static int upgrade(ErlNifEnv *env, void **private, void **old, ERL_NIF_TERM info) {
    UNUSED(old);
    return load(env, private, info);
}

static void unload(ErlNifEnv *env, void *private) {
    UNUSED(env);
    UNUSED(private);
    background_unload();
}

static ErlNifFunc functions[] = {
    {"open", 7, nif_open, ERL_NIF_DIRTY_JOB_CPU_BOUND},
    {"open", 8, nif_open, ERL_NIF_DIRTY_JOB_CPU_BOUND},
    {"close", 1, nif_close, ERL_NIF_DIRTY_JOB_CPU_BOUND},
    {"monotonic_time", 1, nif_monotonic_time, 0},
    {"system_time", 1, nif_system_time, 0},
    {"time_offset", 1, nif_time_offset, 0},
    {"os_time", 1, nif_os_time, 0},
    {"settings", 1, nif_settings, 0},
    {"info", 1, nif_info, ERL_NIF_DIRTY_JOB_CPU_BOUND},
    {"start", 6, nif_start, 0},
    {"cancel", 1, nif_cancel, 0},
    {"stop", 1, nif_stop, 0},
    {"read", 1, nif_read, 0},
    {"is_timer", 1, nif_is_timer, 0},
    {"monitor", 1, nif_monitor, 0},
    {"demonitor", 1, nif_demonitor, 0},
    {"is_monitor", 1, nif_is_monitor, 0},
    {"step", 2, nif_step, 0},
    {"run", 2, nif_run, 0},
    {"leap", 3, nif_leap, 0},
    {"tick", 4, nif_tick, 0},
    {"drift", 2, nif_drift, 0},
    {"finalize", 1, nif_finalize, 0},
    {"free_run", 1, nif_free_run, 0},
    {"order", 2, nif_order, 0},
    {"serial", 2, nif_serial, 0},
    {"late", 3, nif_late, 0},
    {"cost", 2, nif_cost, 0},
    {"lead", 1, nif_lead, 0},
    {"unlead", 1, nif_unlead, 0},
    {"join", 1, nif_join, 0},
    {"leave", 1, nif_leave, 0},
    {"members", 1, nif_members, 0},
    {"timers", 1, nif_timers, ERL_NIF_DIRTY_JOB_CPU_BOUND},
};

ERL_NIF_INIT(ertime_nif, functions, load, NULL, upgrade, unload)
