/*
 * The clock goes on from deadline to deadline, and what is due is sent.
 */
#include "ertime_nif.h"

enum {
    CALL_MESSAGES = 1024,  /* messages that one call of step/2 sends */
    CALL_TICKS = 256,      /* ticks that one call of step/2 makes */
    CALL_TIME = 300,       /* microseconds that one call of step/2 takes on a scheduler */
    LONG_CALL_TIME = 5000, /* and elsewhere */
    SHORT_STEP = 1024      /* milliseconds of a step where the OS clocks have gone apart */
};

/* --- how far -------------------------------------------------------------------------------------------------- */

/*
 * No timer is due before this many nanoseconds of monotonic time: so far it is to a deadline, or where that is far to a
 * time before it, from which the library sees it nearer.
 */
static int64_t until_due(state *s) {
    int64_t found = INT64_MAX;
    for (uint32_t wheel = 0; wheel < s->settings.schedulers; wheel++) {
        uint64_t due;
        if (ert_world_next_due(&s->world, wheel, &due) != ERT_OK) {
            continue;
        }
        due = due > s->late[wheel] ? due : s->late[wheel];
        found = (int64_t)due < found ? (int64_t)due : found;
    }
    if (found == INT64_MAX) {
        return found;
    }
    int64_t now = atomic_load_explicit(&s->now, memory_order_relaxed) - s->settings.start;
    return found * MILLISECOND > now ? found * MILLISECOND - now : 0;
}

/*
 * How far the OS clocks run until the next tick: at most `left`, and not past the next deadline.
 *
 * Where the OS clocks have gone apart, monotonic time may run faster than theirs, by a percent with time correction
 * and by the drift without; then steps are short, and come nearer to the deadline one by one.
 */
static int64_t next_step(state *s, int64_t left) {
    int64_t due = until_due(s);
    int64_t step = left;
    if (s->apart) {
        step = step < SHORT_STEP * MILLISECOND ? step : SHORT_STEP * MILLISECOND;
        if (due < 8 * SHORT_STEP * MILLISECOND) { /* so that the products fit */
            if (s->settings.correction != 0) {
                due = due * 100 / 101;
            } else if (s->drift > 0) {
                due = due * SECOND / (SECOND + s->drift);
            }
            due = due > 0 ? due : 1;
        }
    }
    return step < due ? step : due;
}

/* --- step/2 --------------------------------------------------------------------------------------------------- */

/* Both add to `put` how many messages there are then. */
static int32_t turn(state *s, uint32_t wheel, uint32_t *put) {
    ert_turned turned = {.put = 0};
    int32_t status = ert_world_turn(&s->world, wheel, &turned);
    *put += turned.put;
    return status;
}

static int32_t turn_for_one(state *s, uint32_t wheel, uint32_t *put) {
    ert_turned_some turned;
    int32_t status;
    do {
        turned = (ert_turned_some){.put = 0, .more = 0};
        status = ert_world_turn_some(&s->world, wheel, 1, &turned);
        *put += turned.put;
    } while (status == ERT_OK && turned.put == 0 && turned.more != 0);
    return status;
}

static int32_t turn_all(state *s, uint32_t *put) {
    int32_t status = ERT_OK;
    uint8_t order[MOST_WHEELS];
    *put = 0;
    wheels_in_turn(s, order);
    for (uint32_t i = 0; status == ERT_OK && i < s->settings.schedulers && !(s->serial && *put > 0); i++) {
        if (is_late(s, order[i])) {
            continue;
        }
        status = s->serial ? turn_for_one(s, order[i], put) : turn(s, order[i], put);
    }
    return status;
}

/* Lets expire what is due. Where that is nothing, the clock goes on to the next tick, and what is due then expires. */
static int32_t turn_or_move(state *s, int64_t *left) {
    uint32_t put;
    int32_t status = turn_all(s, &put);
    if (status == ERT_OK && put == 0 && *left > 0) {
        int64_t step = next_step(s, *left);
        status = run_on(s, step);
        if (status == ERT_OK) {
            *left -= step;
            status = turn_all(s, &put);
        }
    }
    return status;
}

/* What one piece of a step takes. */
typedef struct {
    batch expired;
    change news;
    uint32_t armed;
} piece;

/* Takes messages that wait. Where none does and it may, it moves the clock first. The state was entered, and is left. */
static int32_t piece_take(state *s, piece *it, int64_t *left, bool may_move) {
    int32_t status = ERT_OK;
    batch_take(s, &it->expired);
    if (it->expired.count == 0 && may_move) {
        bool is_long = is_much(s);
        if (!is_open(s)) {
            status = ERT_CLOSED;
        } else if (is_long) {
            state_begin(s);
            status = turn_or_move(s, left);
            state_end(s);
        } else {
            status = turn_or_move(s, left);
        }
        batch_take(s, &it->expired);
    }
    change_take(s, &it->news);
    it->armed = is_open(s) ? s->armed : 0;
    state_leave(s);
    return status;
}

static unsigned piece_send(ErlNifEnv *env, state *s, piece *it) {
    unsigned told = change_send(env, s, &it->news);
    batch_send(env, &it->expired);
    return told + it->expired.count;
}

/*
 * step(Clock, Nanoseconds) -> {Left, Sent, Armed} | closed | badarg | no_memory
 *
 * Lets the OS clocks run until a message is sent, the nanoseconds are over, or this call has done enough work. All that
 * is due is sent before the clock moves.
 */
ERL_NIF_TERM nif_step(ErlNifEnv *env, int argc, const ERL_NIF_TERM argv[]) {
    clock_resource *clock;
    int64_t left;
    if (!get_clock(env, argv[0], &clock) || !get_int64(env, argv[1], &left) || left < 0) {
        return atom_badarg;
    }
    state *s = clock->state;
    left = left < LONGEST_STEP ? left : LONGEST_STEP;
    ErlNifTime began = enif_monotonic_time(ERL_NIF_USEC), took = 0;
    ErlNifTime most = on_scheduler() ? CALL_TIME : LONG_CALL_TIME;
    unsigned sent = 0, ticks = 0;
    piece it;
    do {
        if (!enter_to_move(s)) {
            if (sent > 0) {
                break;
            }
            const ERL_NIF_TERM rest[] = {argv[0], enif_make_int64(env, left)};
            return elsewhere(env, "step", nif_step, argc, rest);
        }
        int32_t status = piece_take(s, &it, &left, sent == 0);
        sent += piece_send(env, s, &it);
        if (status != ERT_OK) {
            return of_status(status);
        }
        ticks += 1;
        took = enif_monotonic_time(ERL_NIF_USEC) - began;
    } while (took < most && (sent == 0 ? left > 0 && ticks < CALL_TICKS : it.expired.count == BATCH && sent < CALL_MESSAGES));
    enif_consume_timeslice(env, took < 10 ? 1 : took < 1000 ? (int)(took / 10) : 100);
    return enif_make_tuple3(env, enif_make_int64(env, left), enif_make_uint(env, sent), enif_make_uint(env, it.armed));
}

/* free_run(Clock) -> Nanoseconds | closed | badarg: so long the OS clocks may run with no timer due before the end */
ERL_NIF_TERM nif_free_run(ErlNifEnv *env, int argc, const ERL_NIF_TERM argv[]) {
    clock_resource *clock;
    if (!get_clock(env, argv[0], &clock)) {
        return atom_badarg;
    }
    state *s = clock->state;
    if (!enter_to_move(s)) {
        return elsewhere(env, "free_run", nif_free_run, argc, argv);
    }
    bool open = is_open(s), is_long = is_much(s);
    int64_t found = 0;
    if (open && is_long) {
        state_begin(s);
        found = next_step(s, LONGEST_STEP);
        state_end(s);
    } else if (open) {
        found = next_step(s, LONGEST_STEP);
    }
    state_leave(s);
    return open ? enif_make_int64(env, found) : atom_closed;
}
