/*
 * Faults that the model of the clock allows, for tests: the order of timers that are due at once, one message a step, a
 * scheduler that comes late, and time that passes while code runs.
 *
 * Timers of one wheel expire in order of their deadlines, and nothing orders wheels. So with a seed each timer is started
 * on a wheel that is drawn, and the wheels take their turns in an order that is drawn anew for each millisecond. Both
 * are computed from the seed, from the number of the start and from the time, and so the same calls have the same order.
 */
#include "ertime_nif.h"

/* A number that depends on each bit of another one: the output function of splitmix64. */
static uint64_t mixed(uint64_t it) {
    it += UINT64_C(0x9E3779B97F4A7C15);
    it = (it ^ (it >> 30)) * UINT64_C(0xBF58476D1CE4E5B9);
    it = (it ^ (it >> 27)) * UINT64_C(0x94D049BB133111EB);
    return it ^ (it >> 31);
}

static uint64_t milliseconds(const state *s) {
    return (uint64_t)(atomic_load_explicit(&s->now, memory_order_relaxed) - s->settings.start) / MILLISECOND;
}

/* The wheel of the next timer for a receiver, if none was full. Under the lock. */
uint32_t wheel_for(state *s, const receiver *to) {
    if (s->seed != 0) {
        s->starts += 1;
        return (uint32_t)(mixed(s->seed ^ mixed(s->starts)) % s->settings.schedulers);
    }
    return s->spread ? to->number % s->settings.schedulers : s->wheel;
}

/* The wheels in the order in which they have their turns now. */
void wheels_in_turn(const state *s, uint8_t order[MOST_WHEELS]) {
    uint64_t random = s->seed ^ mixed(milliseconds(s));
    for (uint32_t wheel = 0; wheel < s->settings.schedulers; wheel++) {
        uint32_t at = wheel;
        if (s->seed != 0) {
            random = mixed(random);
            at = (uint32_t)(random % (wheel + 1));
        }
        order[wheel] = order[at];
        order[at] = (uint8_t)wheel;
    }
}

/* Whether a wheel has no turn now. */
bool is_late(const state *s, uint32_t wheel) {
    return s->late[wheel] > milliseconds(s);
}

/* order(Clock, Seed) -> ok | badarg: timers that are due at once come in an order that the seed determines; with 0 in that of a clock without faults */
ERL_NIF_TERM nif_order(ErlNifEnv *env, int argc, const ERL_NIF_TERM argv[]) {
    clock_resource *clock;
    int64_t seed;
    if (!get_clock(env, argv[0], &clock) || !get_int64(env, argv[1], &seed)) {
        return atom_badarg;
    }
    state *s = clock->state;
    if (!state_enter(s)) {
        return elsewhere(env, "order", nif_order, argc, argv);
    }
    s->seed = seed == 0 ? 0 : mixed((uint64_t)seed) | 1;
    s->starts = 0;
    state_leave(s);
    return atom_ok;
}

/* serial(Clock, IsOn) -> ok | badarg: a step sends one message at most */
ERL_NIF_TERM nif_serial(ErlNifEnv *env, int argc, const ERL_NIF_TERM argv[]) {
    clock_resource *clock;
    if (!get_clock(env, argv[0], &clock)) {
        return atom_badarg;
    }
    state *s = clock->state;
    if (!state_enter(s)) {
        return elsewhere(env, "serial", nif_serial, argc, argv);
    }
    s->serial = enif_is_identical(argv[1], atom_true);
    state_leave(s);
    return atom_ok;
}

/* late(Clock, Wheel, Milliseconds) -> ok | badarg: the wheel, counted anew from 0 past the last one, has no turn for so long */
ERL_NIF_TERM nif_late(ErlNifEnv *env, int argc, const ERL_NIF_TERM argv[]) {
    clock_resource *clock;
    unsigned wheel;
    int64_t wait;
    if (!get_clock(env, argv[0], &clock) || !enif_get_uint(env, argv[1], &wheel) || !get_int64(env, argv[2], &wait) || wait < 0) {
        return atom_badarg;
    }
    state *s = clock->state;
    if (!state_enter(s)) {
        return elsewhere(env, "late", nif_late, argc, argv);
    }
    s->late[wheel % s->settings.schedulers] = milliseconds(s) + (uint64_t)wait;
    state_leave(s);
    return atom_ok;
}

/* cost(Clock, Nanoseconds) -> ok | badarg: for a process that uses the clock, to read the time takes so long */
ERL_NIF_TERM nif_cost(ErlNifEnv *env, int argc, const ERL_NIF_TERM argv[]) {
    clock_resource *clock;
    int64_t cost;
    if (!get_clock(env, argv[0], &clock) || !get_int64(env, argv[1], &cost) || cost < 0 || cost > SECOND) {
        return atom_badarg;
    }
    state *s = clock->state;
    if (!state_enter(s)) {
        return elsewhere(env, "cost", nif_cost, argc, argv);
    }
    atomic_store(&s->cost, cost);
    state_leave(s);
    return atom_ok;
}

/*
 * The calling process reads the time, which takes it the cost of the clock. Answers false where the call has to be made
 * elsewhere.
 */
bool pay(ErlNifEnv *env, state *s) {
    ErlNifPid self;
    if (enif_self(env, &self) == NULL) {
        return true;
    }
    if (!enter_to_move(s)) {
        return false;
    }
    const receiver *payer = is_open(s) ? receiver_find(s, &self) : NULL;
    if (payer != NULL && payer->member) {
        run_on(s, atomic_load(&s->cost));
    }
    leave_and_tell(env, s);
    return true;
}
