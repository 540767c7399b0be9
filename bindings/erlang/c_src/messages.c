/*
 * The messages of timers.
 *
 * An atom, a small integer, a local pid and [] are kept in the record of the timer. Any other message is copied into
 * an environment that up to GROUP_SIZE timers share, which is freed with the last of them. A thread that starts a
 * timer takes a group with room from the state, fills it alone, and gives it back.
 */
#include "ertime_nif.h"

static void group_release(group *it, unsigned refs) {
    if (it != NULL && atomic_fetch_sub(&it->refs, refs) == refs) {
        enif_free_env(it->env);
        enif_free(it);
    }
}

/* Lets go of a group that is filled no further. Without the lock. */
void group_retire(group *it) {
    if (it != NULL) {
        group_release(it, GROUP_SIZE - it->used + 1);
    }
}

static group *group_make(void) {
    group *it = enif_alloc(sizeof *it);
    if (it == NULL) {
        return NULL;
    }
    it->env = enif_alloc_env();
    if (it->env == NULL) {
        enif_free(it);
        return NULL;
    }
    it->used = 0;
    atomic_init(&it->refs, GROUP_SIZE + 1);
    return it;
}

/* A group with room, which the calling thread has then. */
static group *group_take(state *s) {
    for (unsigned i = 0; i < GROUPS; i++) {
        if (atomic_load_explicit(&s->groups[i], memory_order_relaxed) != NULL) {
            group *it = atomic_exchange_explicit(&s->groups[i], NULL, memory_order_acquire);
            if (it != NULL) {
                return it;
            }
        }
    }
    return group_make();
}

/* Gives a group back. Answers it where it has to be retired instead. Under the lock, while the clock is open. */
group *group_give(state *s, group *filled) {
    if (filled->used == GROUP_SIZE) {
        return filled;
    }
    for (unsigned i = 0; i < GROUPS; i++) {
        if (atomic_load_explicit(&s->groups[i], memory_order_relaxed) == NULL) {
            atomic_store_explicit(&s->groups[i], filled, memory_order_release);
            return NULL;
        }
    }
    return filled;
}

/* Retires the groups with room of a clock that is closed. */
void groups_retire(state *s) {
    for (unsigned i = 0; i < GROUPS; i++) {
        group_retire(atomic_exchange(&s->groups[i], NULL));
    }
}

static bool keep_small(ErlNifEnv *env, timer *it, ERL_NIF_TERM message) {
    if (enif_is_atom(env, message)) {
        it->word = WORD_ATOM;
        it->message.term = message;
    } else if (enif_get_int64(env, message, &it->message.integer)) {
        it->word = WORD_INTEGER;
    } else if (enif_get_local_pid(env, message, &it->message.pid)) {
        it->word = WORD_PID;
    } else if (enif_is_empty_list(env, message)) {
        it->word = WORD_NIL;
    } else {
        it->word = WORD_TERM;
        return false;
    }
    return true;
}

/*
 * Keeps the message of a timer. Answers false where there is no memory. `filled` is the group that it took, or NULL:
 * it has to be given back or retired. Without the lock.
 */
bool message_keep(ErlNifEnv *env, state *s, timer *it, ERL_NIF_TERM message, group **filled) {
    *filled = NULL;
    if (keep_small(env, it, message)) {
        return true;
    }
    group *into = group_take(s);
    if (into == NULL) {
        return false;
    }
    into->used += 1;
    it->group = into;
    it->message.term = enif_make_copy(into->env, message);
    *filled = into;
    return true;
}

/* Lets a timer go that isn't listed, with its message. Without the lock. */
void timer_finish(timer *it) {
    group_release(it->group, 1);
    it->group = NULL;
    enif_release_resource(it);
}

ERL_NIF_TERM message_of(ErlNifEnv *env, const timer *it) {
    switch ((word_kind)it->word) {
    case WORD_ATOM:
        return it->message.term;
    case WORD_INTEGER:
        return enif_make_int64(env, it->message.integer);
    case WORD_PID:
        return enif_make_pid(env, &it->message.pid);
    case WORD_NIL:
        return enif_make_list(env, 0);
    case WORD_TERM:
        break;
    }
    return enif_make_copy(env, it->message.term);
}

/* --- sending -------------------------------------------------------------------------------------------------- */

/* Takes messages of timers that have expired, BATCH at most. Under the lock. */
void batch_take(state *s, batch *it) {
    ert_mail mail;
    it->count = 0;
    while (is_open(s) && it->count < BATCH && ert_world_take(&s->world, ALIVE, &mail) == ERT_OK) {
        timer *expired = (timer *)(uintptr_t)mail.msg;
        timer_unlist(expired);
        it->timers[it->count++] = expired;
    }
}

static void send_timer(ErlNifEnv *env, timer *it) {
    ErlNifPid pid;
    if (it->muted) {
        return;
    }
    if (!it->by_name) {
        pid = it->to.pid;
    } else if (!enif_whereis_pid(env, it->to.name, &pid)) {
        return;
    }
    ERL_NIF_TERM message = message_of(env, it);
    if (!it->bare) {
        message = enif_make_tuple3(env, atom_timeout, enif_make_resource(env, it), message);
    }
    enif_send(env, &pid, NULL, message);
}

void batch_send(ErlNifEnv *env, batch *it) {
    for (unsigned i = 0; i < it->count; i++) {
        send_timer(env, it->timers[i]);
        timer_finish(it->timers[i]);
    }
}
