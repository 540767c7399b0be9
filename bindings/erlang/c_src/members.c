/*
 * Who uses the clock, who moves it, and what is armed.
 */
#include "ertime_nif.h"

/* lead(Clock) -> true | false | closed | badarg: the calling process is the one that moves the clock, until unlead/1 */
ERL_NIF_TERM nif_lead(ErlNifEnv *env, int argc, const ERL_NIF_TERM argv[]) {
    clock_resource *clock;
    ErlNifPid self;
    if (!get_clock(env, argv[0], &clock) || enif_self(env, &self) == NULL) {
        return atom_badarg;
    }
    state *s = clock->state;
    if (!state_enter(s)) {
        return elsewhere(env, "lead", nif_lead, argc, argv);
    }
    bool open = is_open(s);
    bool free = !s->led || !enif_is_process_alive(env, &s->leader);
    if (open && free) {
        s->led = true;
        s->leader = self;
    }
    state_leave(s);
    return !open ? atom_closed : free ? atom_true : atom_false;
}

/* unlead(Clock) -> ok | badarg */
ERL_NIF_TERM nif_unlead(ErlNifEnv *env, int argc, const ERL_NIF_TERM argv[]) {
    clock_resource *clock;
    ErlNifPid self;
    if (!get_clock(env, argv[0], &clock) || enif_self(env, &self) == NULL) {
        return atom_badarg;
    }
    state *s = clock->state;
    if (!state_enter(s)) {
        return elsewhere(env, "unlead", nif_unlead, argc, argv);
    }
    if (s->led && enif_compare_pids(&s->leader, &self) == 0) {
        s->led = false;
    }
    state_leave(s);
    return atom_ok;
}

/* join(Clock) -> ok | closed | badarg | system_limit: the calling process uses the clock */
ERL_NIF_TERM nif_join(ErlNifEnv *env, int argc, const ERL_NIF_TERM argv[]) {
    clock_resource *clock;
    ErlNifPid self;
    if (!get_clock(env, argv[0], &clock) || enif_self(env, &self) == NULL) {
        return atom_badarg;
    }
    state *s = clock->state;
    if (!state_enter(s)) {
        return elsewhere(env, "join", nif_join, argc, argv);
    }
    receiver *own;
    int32_t status = is_open(s) ? receiver_of(env, clock, &self, &own) : ERT_CLOSED;
    if (status == ERT_OK) {
        own->member = true;
    }
    state_leave(s);
    return status == ERT_CLOSED ? atom_closed : status == ERT_NO_MEMORY ? atom_system_limit : atom_ok;
}

/* leave(Clock) -> ok | badarg */
ERL_NIF_TERM nif_leave(ErlNifEnv *env, int argc, const ERL_NIF_TERM argv[]) {
    clock_resource *clock;
    ErlNifPid self;
    if (!get_clock(env, argv[0], &clock) || enif_self(env, &self) == NULL) {
        return atom_badarg;
    }
    state *s = clock->state;
    if (!state_enter(s)) {
        return elsewhere(env, "leave", nif_leave, argc, argv);
    }
    receiver *own = is_open(s) ? receiver_find(s, &self) : NULL;
    if (own != NULL) {
        own->member = false;
    }
    state_leave(s);
    return atom_ok;
}

/* --- lists ---------------------------------------------------------------------------------------------------- */

/* Whether its process hasn't exited. */
static bool counts(const receiver *it) {
    return !atomic_load_explicit(&it->gone, memory_order_relaxed);
}

/* The processes that use the clock. Under the lock, or while the state is kept. */
ERL_NIF_TERM list_members(ErlNifEnv *env, const state *s) {
    ERL_NIF_TERM list = enif_make_list(env, 0);
    walk all;
    walk_begin(&all, &s->receivers);
    for (receiver *it = walk_next(&all); it != NULL; it = walk_next(&all)) {
        if (it->member && counts(it)) {
            list = enif_make_list_cell(env, enif_make_pid(env, &it->pid), list);
        }
    }
    return list;
}

/* members(Clock) -> [pid()] | badarg */
ERL_NIF_TERM nif_members(ErlNifEnv *env, int argc, const ERL_NIF_TERM argv[]) {
    clock_resource *clock;
    if (!get_clock(env, argv[0], &clock)) {
        return atom_badarg;
    }
    state *s = clock->state;
    bool entered = state_enter(s);
    if (entered && s->receivers.buckets > FEW && on_scheduler()) {
        state_leave(s);
        entered = false;
    }
    if (!entered) {
        return elsewhere(env, "members", nif_members, argc, argv);
    }
    ERL_NIF_TERM list = enif_make_list(env, 0);
    if (is_open(s) && s->receivers.buckets > FEW) {
        state_begin(s);
        list = list_members(env, s);
        state_end(s);
    } else if (is_open(s)) {
        list = list_members(env, s);
    }
    state_leave(s);
    return list;
}

static ERL_NIF_TERM add_timers(ErlNifEnv *env, state *s, const receiver *from, ERL_NIF_TERM list) {
    for (const ring *at = from->timers.next; at != &from->timers; at = at->next) {
        timer *it = OF_RING(at, timer, place);
        uint64_t left = 0;
        if (ert_world_read(&s->world, &it->name, &left) != ERT_OK) {
            continue;
        }
        ERL_NIF_TERM to = it->by_name ? it->to.name : enif_make_pid(env, &it->to.pid);
        ERL_NIF_TERM row = enif_make_tuple5(env, enif_make_uint64(env, left), to, enif_make_resource(env, it),
                                            message_of(env, it), it->bare ? atom_true : atom_false);
        list = enif_make_list_cell(env, row, list);
    }
    return list;
}

/* {Left, To, Reference, Message, Bare} of each timer that is armed. While the state is kept. */
ERL_NIF_TERM list_timers(ErlNifEnv *env, state *s) {
    ERL_NIF_TERM list = add_timers(env, s, &s->others, enif_make_list(env, 0));
    walk all;
    walk_begin(&all, &s->receivers);
    for (receiver *it = walk_next(&all); it != NULL; it = walk_next(&all)) {
        list = counts(it) ? add_timers(env, s, it, list) : list;
    }
    return list;
}

/* Those of a receive, which belong to nobody else from here on. */
static ERL_NIF_TERM add_asleep(ErlNifEnv *env, state *s, const receiver *from, ERL_NIF_TERM list) {
    for (const ring *at = from->timers.next; at != &from->timers; at = at->next) {
        timer *it = OF_RING(at, timer, place);
        if (it->muted || it->by_name || it->word != WORD_ATOM || !enif_is_identical(it->message.term, atom_after)) {
            continue;
        }
        uint64_t left = 0; /* also where it has expired, and its message wasn't taken */
        ert_world_read(&s->world, &it->name, &left);
        it->asleep = true;
        ERL_NIF_TERM row = enif_make_tuple3(env, enif_make_uint64(env, left), enif_make_pid(env, &it->to.pid),
                                            enif_make_resource(env, it));
        list = enif_make_list_cell(env, row, list);
    }
    return list;
}

/* {Left, To, Reference} of each process that waits with a timeout. While the state is kept, and is closed. */
ERL_NIF_TERM list_asleep(ErlNifEnv *env, state *s) {
    ERL_NIF_TERM list = enif_make_list(env, 0);
    walk all;
    walk_begin(&all, &s->receivers);
    for (receiver *it = walk_next(&all); it != NULL; it = walk_next(&all)) {
        list = counts(it) ? add_asleep(env, s, it, list) : list;
    }
    return list;
}

/* timers(Clock) -> [{Left, To, Reference, Message, Bare}] | badarg: those that are armed. On a dirty scheduler. */
ERL_NIF_TERM nif_timers(ErlNifEnv *env, int argc, const ERL_NIF_TERM argv[]) {
    clock_resource *clock;
    if (!get_clock(env, argv[0], &clock)) {
        return atom_badarg;
    }
    state *s = clock->state;
    if (!state_enter(s)) {
        return elsewhere(env, "timers", nif_timers, argc, argv);
    }
    ERL_NIF_TERM list = enif_make_list(env, 0);
    if (is_open(s)) {
        state_begin(s);
        list = list_timers(env, s);
        state_end(s);
    }
    state_leave(s);
    return list;
}
