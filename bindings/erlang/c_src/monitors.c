/*
 * Monitors of the time offset.
 *
 * The list of a clock has those first that weren't told of its last change; whoever is told goes to the end. So a
 * change takes no memory, and is told in pieces.
 */
#include "ertime_nif.h"

void watch_unlist(watch *it) {
    ring_remove(&it->place);
    ring_remove(&it->own);
    it->state->watched -= 1;
    it->listed = false;
}

void watch_gone(ErlNifEnv *env, void *object) {
    UNUSED(env);
    watch *it = object;
    state_release(it->state);
}

/* Notes a new time offset, or with `always` any. Under the lock. */
void change_note(state *s, bool always) {
    ert_offset offset = {0, 0};
    if (ert_world_time_offset(&s->world, &offset) == ERT_OK && (always || offset.offset != s->offset)) {
        s->offset = offset.offset;
        s->changes += 1;
    }
}

/* Takes monitors that weren't told of the last change, BATCH at most. Under the lock. */
void change_take(state *s, change *it) {
    it->count = 0;
    it->offset = s->offset;
    while (is_open(s) && it->count < BATCH && !ring_is_empty(&s->watches)) {
        watch *first = OF_RING(s->watches.next, watch, place);
        if (first->told == s->changes) {
            return;
        }
        first->told = s->changes;
        ring_remove(&first->place);
        ring_add(&s->watches, &first->place);
        enif_keep_resource(first);
        it->who[it->count++] = first;
    }
}

/* Tells those that were taken, and any further ones. Answers how many they were. Without the lock. */
unsigned change_send(ErlNifEnv *env, state *s, change *it) {
    unsigned sent = 0;
    while (it->count > 0) {
        for (unsigned i = 0; i < it->count; i++) {
            watch *w = it->who[i];
            ERL_NIF_TERM message = enif_make_tuple5(env, atom_change, enif_make_resource(env, w), atom_time_offset,
                                                    atom_clock_service, enif_make_int64(env, it->offset));
            enif_send(env, &w->pid, NULL, message);
            enif_release_resource(w);
        }
        sent += it->count;
        bool more = it->count == BATCH && state_enter(s);
        it->count = 0;
        if (more) {
            change_take(s, it);
            state_leave(s);
        }
    }
    return sent;
}

/* monitor(Clock) -> Reference | closed | badarg | system_limit: the calling process is told each change of the time offset */
ERL_NIF_TERM nif_monitor(ErlNifEnv *env, int argc, const ERL_NIF_TERM argv[]) {
    clock_resource *clock;
    ErlNifPid self;
    if (!get_clock(env, argv[0], &clock) || enif_self(env, &self) == NULL) {
        return atom_badarg;
    }
    state *s = clock->state;
    watch *it = enif_alloc_resource(watch_type, sizeof *it);
    if (it == NULL) {
        return atom_system_limit;
    }
    *it = (watch){.state = s, .pid = self};
    state_keep(s);
    /* From here on the term keeps the monitor as well: once it is listed, another thread may let it go. */
    ERL_NIF_TERM term = enif_make_resource(env, it);
    if (!state_enter(s)) {
        enif_release_resource(it);
        return elsewhere(env, "monitor", nif_monitor, argc, argv);
    }
    receiver *own;
    int32_t status = is_open(s) ? receiver_of(env, clock, &self, &own) : ERT_CLOSED;
    bool listed = status == ERT_OK;
    if (listed) {
        it->told = s->changes;
        it->listed = true;
        ring_add(&s->watches, &it->place);
        ring_add(&own->watches, &it->own);
        s->watched += 1;
    }
    state_leave(s);
    if (!listed) {
        enif_release_resource(it);
    }
    /* A process that is exiting is told nothing. */
    return listed || status == ERT_EXITED ? term : status == ERT_NO_MEMORY ? atom_system_limit : of_status(status);
}

/* demonitor(Monitor) -> true | false | badarg: whether it stood; badarg too for that of another process */
ERL_NIF_TERM nif_demonitor(ErlNifEnv *env, int argc, const ERL_NIF_TERM argv[]) {
    void *object;
    ErlNifPid self;
    if (!enif_get_resource(env, argv[0], watch_type, &object) || enif_self(env, &self) == NULL) {
        return atom_badarg;
    }
    watch *it = object;
    if (enif_compare_pids(&it->pid, &self) != 0) {
        return atom_badarg;
    }
    state *s = it->state;
    if (!state_enter(s)) {
        return elsewhere(env, "demonitor", nif_demonitor, argc, argv);
    }
    bool stood = is_open(s) && it->listed;
    if (stood) {
        watch_unlist(it);
    }
    state_leave(s);
    if (stood) {
        enif_release_resource(it);
    }
    return stood ? atom_true : atom_false;
}

/* is_monitor(Term) -> boolean() */
ERL_NIF_TERM nif_is_monitor(ErlNifEnv *env, int argc, const ERL_NIF_TERM argv[]) {
    UNUSED(argc);
    void *object;
    return enif_get_resource(env, argv[0], watch_type, &object) ? atom_true : atom_false;
}
