/*
 * Timers: they are started, cancelled and read.
 */
#include "ertime_nif.h"

void timer_list(state *s, receiver *to, timer *it) {
    ring_add(&to->timers, &it->place);
    it->receiver = to;
    to->count += 1;
    s->armed += 1;
}

void timer_unlist(timer *it) {
    ring_remove(&it->place);
    it->receiver->count -= 1;
    if (!atomic_load_explicit(&it->receiver->gone, memory_order_relaxed)) {
        it->state->armed -= 1;
    }
    it->receiver = NULL;
}

void timer_gone(ErlNifEnv *env, void *object) {
    UNUSED(env);
    timer *it = object;
    state_release(it->state);
}

static bool get_timer(ErlNifEnv *env, ERL_NIF_TERM term, timer **it) {
    void *object;
    if (!enif_get_resource(env, term, timer_type, &object)) {
        return false;
    }
    *it = object;
    return true;
}

/* A timer that a cancel or a read can find: it is listed, and its process hasn't exited. Under the lock. */
static bool can_be_armed(const timer *it) {
    return is_open(it->state) && it->receiver != NULL && !atomic_load_explicit(&it->receiver->gone, memory_order_relaxed);
}

/* A start that is under way. */
typedef struct {
    timer *timer;
    ERL_NIF_TERM term; /* keeps the timer as well: once that is listed, another thread may let it go */
    int64_t when;
    bool absolute;
    bool again; /* the wheel for it was full */
    uint32_t wheel; /* the one for the next try then */
    bool listed;
    group *filled; /* has to be given back, or retired */
    int32_t status;
} starting;

/*
 * Starts a timer on its wheel, or on the one that had room last, and lists it unless its process has exited. Where the
 * wheel is full the next one is for the next try of this start, whatever others find meanwhile, so that it comes to each:
 * to find a wheel full, the library has looked at each of its slots. Under the lock.
 */
static int32_t start_timer(ErlNifEnv *env, clock_resource *clock, starting *its) {
    state *s = clock->state;
    timer *it = its->timer;
    receiver *to = &s->others;
    int32_t status = it->by_name ? ERT_OK : receiver_of(env, clock, &it->to.pid, &to);
    if (status == ERT_NO_MEMORY) {
        return status;
    }
    bool alive = status == ERT_OK;
    ert_start start = {
        .when = its->when,
        .msg = (uint64_t)(uintptr_t)it,
        .absolute = its->absolute,
        .bare = it->bare,
        .dest = alive ? ALIVE : EXITED,
    };
    uint32_t wheel = its->again ? its->wheel : wheel_for(s, to);
    status = ert_world_start(&s->world, wheel, &start, &it->name);
    if (status == ERT_FULL) {
        its->wheel = s->wheel = (wheel + 1) % s->settings.schedulers;
        its->again = true;
    } else if (status == ERT_OK && alive) {
        timer_list(s, to, it);
    }
    return status;
}

/*
 * A timer for a process, or where that is NULL for a name, which isn't listed. Answers false where there is no memory;
 * then there may be a timer all the same.
 */
static bool start_begin(ErlNifEnv *env, state *s, const ERL_NIF_TERM argv[], const ErlNifPid *to, starting *it) {
    timer *made = enif_alloc_resource(timer_type, sizeof *made);
    it->timer = made;
    if (made == NULL) {
        return false;
    }
    made->state = s;
    made->receiver = NULL;
    made->group = NULL;
    made->still = made->asleep = made->muted = false;
    made->bare = enif_is_identical(argv[4], atom_true);
    made->by_name = to == NULL;
    if (to == NULL) {
        made->to.name = argv[2];
    } else {
        made->to.pid = *to;
    }
    state_keep(s);
    it->term = enif_make_resource(env, made);
    return message_keep(env, s, made, argv[3], &it->filled);
}

/* Tries one wheel. Answers false where the call has to be made elsewhere. */
static bool start_try(ErlNifEnv *env, clock_resource *clock, starting *it) {
    state *s = clock->state;
    if (!state_enter(s)) {
        return false;
    }
    it->status = ERT_CLOSED;
    if (is_open(s)) {
        it->status = start_timer(env, clock, it);
        it->listed = it->timer->receiver != NULL;
        if (it->filled != NULL) {
            it->filled = group_give(s, it->filled);
        }
    }
    /* Another wheel may have room, or processes that have exited give theirs back. */
    bool may_have_room = it->status == ERT_FULL && (s->settings.schedulers > 1 || s->gone != NULL);
    state_leave(s);
    return !may_have_room || !on_scheduler();
}

/* start(Clock, Milliseconds, To, Message, Bare, Absolute) -> Reference | closed | badarg | system_limit */
ERL_NIF_TERM nif_start(ErlNifEnv *env, int argc, const ERL_NIF_TERM argv[]) {
    clock_resource *clock;
    ErlNifPid pid;
    starting it = {.absolute = enif_is_identical(argv[5], atom_true), .status = ERT_NO_MEMORY};
    if (!get_clock(env, argv[0], &clock) || !get_int64(env, argv[1], &it.when)) {
        return atom_badarg;
    }
    const ErlNifPid *to = enif_get_local_pid(env, argv[2], &pid) ? &pid : NULL;
    if (to == NULL && !enif_is_atom(env, argv[2])) {
        return atom_badarg;
    }
    state *s = clock->state;
    bool here = true;
    if (start_begin(env, s, argv, to, &it)) {
        here = start_try(env, clock, &it);
        for (uint32_t tried = 0; it.status == ERT_FULL && !on_scheduler() && tried < s->settings.schedulers; tried++) {
            gone_finish(s);
            start_try(env, clock, &it);
        }
    }
    group_retire(it.filled);
    if (it.timer != NULL && !it.listed) {
        timer_finish(it.timer);
    }
    if (!here) {
        return elsewhere(env, "start", nif_start, argc, argv);
    }
    return it.status == ERT_OK ? it.term : it.status == ERT_NO_MEMORY ? atom_system_limit : of_status(it.status);
}

/* --- settling ------------------------------------------------------------------------------------------------- */

static void stand_still(state *s, const receiver *from) {
    for (const ring *at = from->timers.next; at != &from->timers; at = at->next) {
        timer *it = OF_RING(at, timer, place);
        uint64_t left = 0;
        ert_world_read(&s->world, &it->name, &left);
        it->still = !it->asleep && !it->muted;
        it->left = left;
    }
}

/* The timers that are armed when a clock is closed have from then on what was left of them. The state is kept, and closed. */
void timers_stand_still(state *s) {
    stand_still(s, &s->others);
    walk all;
    walk_begin(&all, &s->receivers);
    for (receiver *it = walk_next(&all); it != NULL; it = walk_next(&all)) {
        if (!atomic_load_explicit(&it->gone, memory_order_relaxed)) {
            stand_still(s, it);
        }
    }
}

/* cancel(Timer) -> Milliseconds | false | badarg: what was left, also of a clock that is closed */
ERL_NIF_TERM nif_cancel(ErlNifEnv *env, int argc, const ERL_NIF_TERM argv[]) {
    timer *it;
    if (!get_timer(env, argv[0], &it)) {
        return atom_badarg;
    }
    state *s = it->state;
    uint64_t left = 0;
    if (!state_enter(s)) {
        return elsewhere(env, "cancel", nif_cancel, argc, argv);
    }
    bool was_armed = can_be_armed(it) && ert_world_cancel(&s->world, &it->name, &left) == ERT_OK;
    bool was_still = it->still;
    if (was_armed) {
        timer_unlist(it);
    } else if (was_still) {
        left = it->left;
        it->still = false;
    }
    state_leave(s);
    if (was_armed) {
        timer_finish(it);
    }
    return was_armed || was_still ? enif_make_uint64(env, left) : atom_false;
}

/*
 * stop(Timer) -> ok | sent | closed | badarg: the timeout of a receive that has ended
 *
 * It is `ok` where no message of it will come, `sent` where one has come or is on its way, and `closed` where the clock was
 * closed meanwhile, and whoever closed it has told of this timer.
 */
ERL_NIF_TERM nif_stop(ErlNifEnv *env, int argc, const ERL_NIF_TERM argv[]) {
    timer *it;
    if (!get_timer(env, argv[0], &it)) {
        return atom_badarg;
    }
    state *s = it->state;
    uint64_t left = 0;
    if (!state_enter(s)) {
        return elsewhere(env, "stop", nif_stop, argc, argv);
    }
    bool was_armed = false;
    ERL_NIF_TERM answer = atom_ok;
    if (!can_be_armed(it)) {
        answer = it->asleep ? atom_closed : it->still ? atom_ok : atom_sent;
    } else if (ert_world_cancel(&s->world, &it->name, &left) == ERT_OK) {
        was_armed = true;
        timer_unlist(it);
    } else {
        it->muted = true;
    }
    it->still = false;
    state_leave(s);
    if (was_armed) {
        timer_finish(it);
    }
    return answer;
}

/* read(Timer) -> Milliseconds | false | badarg: what is left, also of a clock that is closed */
ERL_NIF_TERM nif_read(ErlNifEnv *env, int argc, const ERL_NIF_TERM argv[]) {
    timer *it;
    if (!get_timer(env, argv[0], &it)) {
        return atom_badarg;
    }
    state *s = it->state;
    uint64_t left = 0;
    if (!state_enter(s)) {
        return elsewhere(env, "read", nif_read, argc, argv);
    }
    bool armed = can_be_armed(it) && ert_world_read(&s->world, &it->name, &left) == ERT_OK;
    if (it->still) {
        armed = true;
        left = it->left;
    }
    state_leave(s);
    return armed ? enif_make_uint64(env, left) : atom_false;
}

/* is_timer(Term) -> boolean() */
ERL_NIF_TERM nif_is_timer(ErlNifEnv *env, int argc, const ERL_NIF_TERM argv[]) {
    UNUSED(argc);
    timer *it;
    return get_timer(env, argv[0], &it) ? atom_true : atom_false;
}
