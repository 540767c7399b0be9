/*
 * The thread for what would hold a scheduler too long: the timers of a process that had many, and those of a clock
 * that is dropped. It is made where there is work, ends with it, and is joined before the library is unloaded.
 */
#include "ertime_nif.h"

static struct {
    ErlNifMutex *lock;
    ErlNifTid thread;
    state *first; /* each is kept */
    state *last;
    unsigned loads; /* a library that is loaded again from the same file is the same */
    bool runs;
    bool was_made;
} background;

bool background_load(void) {
    if (background.loads == 0) {
        background.lock = enif_mutex_create((char *)"ertime_background");
        if (background.lock == NULL) {
            return false;
        }
    }
    background.loads += 1;
    return true;
}

static void work(state *s) {
    enif_mutex_lock(s->lock);
    bool abandoned = s->abandoned;
    s->abandoned = false;
    enif_mutex_unlock(s->lock);
    if (abandoned) {
        state_dismantle(NULL, s, NULL);
    } else {
        gone_finish(s);
    }
    state_release(s);
}

/* The next state. Where there is none, the thread that asks ends. */
static state *next_state(bool of_thread) {
    enif_mutex_lock(background.lock);
    state *s = background.first;
    if (s != NULL) {
        background.first = s->next;
        s->waits = false;
    } else if (of_thread) {
        background.runs = false;
    }
    enif_mutex_unlock(background.lock);
    return s;
}

static void *run(void *unused) {
    for (state *s = next_state(true); s != NULL; s = next_state(true)) {
        work(s);
    }
    return unused;
}

static void join(void) {
    if (background.was_made) {
        enif_thread_join(background.thread, NULL);
        background.was_made = false;
    }
}

/* Leaves a state to the thread: it is dismantled where it was abandoned, and else those that have exited are settled. */
void background_add(state *s) {
    enif_mutex_lock(background.lock);
    if (!s->waits) {
        state_keep(s);
        s->waits = true;
        s->next = NULL;
        if (background.first == NULL) {
            background.first = s;
        } else {
            background.last->next = s;
        }
        background.last = s;
    }
    if (!background.runs) {
        join();
        background.runs = background.was_made = enif_thread_create((char *)"ertime", &background.thread, run, NULL, NULL) == 0;
    }
    bool runs = background.runs;
    enif_mutex_unlock(background.lock);
    /* Where there is no thread, here. */
    for (state *it = runs ? NULL : next_state(false); it != NULL; it = next_state(false)) {
        work(it);
    }
}

void background_unload(void) {
    background.loads -= 1;
    if (background.loads == 0) {
        join();
        enif_mutex_destroy(background.lock);
    }
}
