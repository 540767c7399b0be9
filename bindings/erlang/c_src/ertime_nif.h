/*
 * What the files of the NIF share. ertime_nif.c tells the whole design.
 */
#ifndef ERTIME_NIF_H
#define ERTIME_NIF_H

#include <erl_nif.h>
#include <ertime.h>
#include <stdatomic.h>
#include <stdbool.h>
#include <stddef.h>
#include <stdint.h>

#define UNUSED(name) ((void)(name))
#define SECOND INT64_C(1000000000)
#define MILLISECOND INT64_C(1000000)
#define MOST_DRIFT SECOND                          /* parts per billion, either way */
#define LONGEST_STEP ((INT64_C(1) << 61) - 1)      /* nanoseconds */
#define IS_DRIFT(value) ((value) >= -MOST_DRIFT && (value) <= MOST_DRIFT)

/* The processes of the service. */
enum { EXITED, ALIVE, PROCESSES };

enum {
    BATCH = 64,          /* timers or monitors that are taken under the lock at once */
    FEW = 1024,          /* timers or receivers: work for more of them isn't done on a scheduler */
    GROUP_SIZE = 32,     /* messages that share an environment */
    GROUPS = 4,          /* groups that have room, of a clock */
    FIRST_BUCKETS = 64,  /* of the table of receivers */
    SEGMENTS = 24,       /* of the table: FIRST_BUCKETS, and then each as many as all before it */
    MOST_WHEELS = 16     /* of a clock */
};

typedef struct state state;
typedef struct receiver receiver;
typedef ERL_NIF_TERM nif(ErlNifEnv *env, int argc, const ERL_NIF_TERM argv[]);

/* --- lists ---------------------------------------------------------------------------------------------------- */

/* A place in a list, or the list itself, which is circular. */
typedef struct ring {
    struct ring *next;
    struct ring *previous;
} ring;

#define OF_RING(place, type, member) ((type *)(void *)((char *)(place)-offsetof(type, member)))

static inline void ring_init(ring *list) {
    list->next = list->previous = list;
}

static inline bool ring_is_empty(const ring *list) {
    return list->next == list;
}

static inline void ring_add(ring *list, ring *it) {
    it->next = list;
    it->previous = list->previous;
    it->previous->next = it;
    list->previous = it;
}

static inline void ring_remove(ring *it) {
    it->previous->next = it->next;
    it->next->previous = it->previous;
}

/* --- records -------------------------------------------------------------------------------------------------- */

/*
 * An environment for the messages of several timers. `refs` counts those that may still take room in it, from the
 * beginning, and whoever has it to fill it: a thread, or the state.
 */
typedef struct {
    ErlNifEnv *env;
    atomic_uint refs;
    unsigned used;
} group;

typedef enum { WORD_ATOM, WORD_INTEGER, WORD_PID, WORD_NIL, WORD_TERM } word_kind;

/* A timer is listed while it is armed, and when it has expired until its message is taken. The list keeps it. */
typedef struct {
    state *state;
    ring place;         /* in the list of its receiver */
    receiver *receiver; /* NULL where it isn't listed */
    group *group;       /* of a WORD_TERM that isn't settled */
    union {
        ERL_NIF_TERM term;
        ErlNifSInt64 integer;
        ErlNifPid pid;
    } message;
    union {
        ErlNifPid pid;
        ERL_NIF_TERM name;
    } to;
    union {
        ert_timer name;
        uint64_t left; /* milliseconds, of one that is still */
    };
    uint8_t word;
    bool by_name;
    bool bare;
    bool still;  /* its clock was closed while it was armed */
    bool asleep; /* the same, and it is the timeout of a receive, which goes on by the runtime's clock */
    bool muted;  /* it has expired, and its message isn't sent */
} timer;

/* A monitor of the time offset. It is listed, and kept, until it is removed or its process exits. */
typedef struct {
    state *state;
    ring place; /* in the list of the state, where those that weren't told of the last change come first */
    ring own;   /* in that of its process */
    uint64_t told;
    ErlNifPid pid;
    bool listed;
} watch;

/* A process with timers or monitors, or one that uses the clock. */
struct receiver {
    receiver *next;      /* in its bucket */
    receiver *next_gone; /* among those that have exited */
    ring timers;
    ring watches;
    uint32_t count;  /* of timers */
    uint16_t number; /* how many there were before it, as far as this counts */
    bool member;
    atomic_bool gone;
    ErlNifPid pid;
    ErlNifMonitor monitor;
};

/* The receivers, by linear hashing: the table grows by a bucket at a time, and none is ever moved. */
typedef struct {
    receiver **segments[SEGMENTS];
    uint32_t buckets;
    uint32_t mask; /* the least 2^n - 1 that isn't below the last bucket */
    uint32_t count;
} table;

struct state {
    atomic_uint refs;
    _Atomic int64_t now; /* what the service told last: reading it takes no lock */
    _Atomic int64_t system;
    _Atomic bool open;
    bool busy; /* somebody has it for long, and doesn't hold the lock */
    bool abandoned;
    ErlNifMutex *lock;
    ErlNifCond *rest; /* told where `busy` ends */
    ert_world world;
    ert_settings settings;
    ert_reading os;
    int64_t drift; /* of the OS system clock against the OS monotonic clock, parts per billion */
    int64_t drift_rest;
    _Atomic int64_t cost; /* nanoseconds that a process takes to read the time */
    uint64_t seed;        /* of the order of timers that are due at once, or 0 */
    uint64_t starts;      /* of timers, since the seed was given */
    uint64_t late[MOST_WHEELS]; /* milliseconds since the start until which a wheel has no turn */
    bool serial;          /* a step sends one message at most */
    bool spread;          /* each receiver has a wheel for its timers */
    uint16_t receivers_made;
    bool apart; /* the OS clocks may have gone apart: the clock is ticked in short steps */
    bool led;
    ErlNifPid leader;
    uint32_t wheel; /* on which the next timer is started */
    uint32_t armed; /* timers that are listed, without those of processes that have exited */
    table receivers;
    receiver others; /* of timers for names, and for processes that have exited since they expired */
    receiver *gone;  /* have exited, and have timers or monitors still */
    _Atomic(group *) groups[GROUPS];
    ring watches;
    uint32_t watched;
    uint64_t changes; /* of the time offset */
    int64_t offset;
    state *next; /* that waits for the thread */
    bool waits;
};

typedef struct {
    state *state;
} clock_resource;

/* --- ertime_nif.c --------------------------------------------------------------------------------------------- */

extern ErlNifResourceType *clock_type, *timer_type, *watch_type;

extern ERL_NIF_TERM atom_ok, atom_true, atom_false, atom_closed, atom_badarg, atom_system_limit, atom_timeout, atom_change,
    atom_time_offset, atom_clock_service, atom_preliminary, atom_final, atom_volatile, atom_no_memory, atom_after,
    atom_sent;

static inline bool get_clock(ErlNifEnv *env, ERL_NIF_TERM term, clock_resource **clock) {
    void *object;
    if (!enif_get_resource(env, term, clock_type, &object)) {
        return false;
    }
    *clock = object;
    return true;
}

static inline bool get_int64(ErlNifEnv *env, ERL_NIF_TERM term, int64_t *value) {
    ErlNifSInt64 found;
    if (!enif_get_int64(env, term, &found)) {
        return false;
    }
    *value = found;
    return true;
}

ERL_NIF_TERM of_status(int32_t status);

/* Whether this is a normal scheduler, which no call may hold for long. */
static inline bool on_scheduler(void) {
    return enif_thread_type() == ERL_NIF_THR_NORMAL_SCHEDULER;
}

/* Makes the call again, on a dirty scheduler. */
static inline ERL_NIF_TERM elsewhere(ErlNifEnv *env, const char *name, nif *function, int argc, const ERL_NIF_TERM argv[]) {
    return enif_schedule_nif(env, name, ERL_NIF_DIRTY_JOB_CPU_BOUND, function, argc, argv);
}

/* --- state.c -------------------------------------------------------------------------------------------------- */

bool state_wait(state *s);

/*
 * Takes the lock, and lets go of it. Answers false, and has no lock, where somebody has the state for long and this is
 * a scheduler. What is held so is short.
 */
static inline bool state_enter(state *s) {
    enif_mutex_lock(s->lock);
    return !s->busy || state_wait(s);
}

static inline void state_leave(state *s) {
    enif_mutex_unlock(s->lock);
}

static inline bool is_open(const state *s) {
    return atomic_load_explicit(&s->open, memory_order_acquire);
}

static inline void state_keep(state *s) {
    atomic_fetch_add_explicit(&s->refs, 1, memory_order_relaxed);
}

void state_begin(state *s);
void state_end(state *s);
void state_release(state *s);
void state_dismantle(ErlNifEnv *env, state *s, clock_resource *clock);
void tell_words(state *s);
void clock_gone(ErlNifEnv *env, void *object);
nif nif_open, nif_close;

/* --- receivers.c ---------------------------------------------------------------------------------------------- */

/* What was taken off its lists under the lock, to be let go of without it. */
typedef struct {
    ring timers;
    ring watches;
} settled;

/* A walk over all receivers. Whoever was handed out may be freed. */
typedef struct {
    const table *table;
    receiver *next;
    uint32_t segment;
    uint32_t begin; /* of the segment */
    uint32_t index; /* of the bucket that comes next */
} walk;

bool table_open(table *t);
void table_close(table *t);
void walk_begin(walk *it, const table *t);
receiver *walk_next(walk *it);
void receiver_init(receiver *it);
receiver *receiver_find(const state *s, const ErlNifPid *pid);
int32_t receiver_of(ErlNifEnv *env, clock_resource *clock, const ErlNifPid *pid, receiver **found);
void receiver_empty(receiver *from, settled *done);
void settled_init(settled *done);
void settled_finish(settled *done);
void gone_finish(state *s);
void process_down(ErlNifEnv *env, void *object, ErlNifPid *pid, ErlNifMonitor *monitor);

/* --- background.c --------------------------------------------------------------------------------------------- */

bool background_load(void);
void background_unload(void);
void background_add(state *s);

/* --- messages.c ----------------------------------------------------------------------------------------------- */

bool message_keep(ErlNifEnv *env, state *s, timer *it, ERL_NIF_TERM message, group **filled);
group *group_give(state *s, group *filled);
void group_retire(group *it);
void groups_retire(state *s);
ERL_NIF_TERM message_of(ErlNifEnv *env, const timer *it);

/* Messages that were taken, to be sent without the lock. */
typedef struct {
    timer *timers[BATCH];
    unsigned count;
} batch;

void batch_take(state *s, batch *it);
void batch_send(ErlNifEnv *env, batch *it);

/* --- timers.c ------------------------------------------------------------------------------------------------- */

void timer_list(state *s, receiver *to, timer *it);
void timer_unlist(timer *it);
void timer_finish(timer *it);
void timer_gone(ErlNifEnv *env, void *object);
void timers_stand_still(state *s);
nif nif_start, nif_cancel, nif_stop, nif_read, nif_is_timer;

/* --- monitors.c ----------------------------------------------------------------------------------------------- */

/* Monitors that have to be told of a change, each kept. */
typedef struct {
    watch *who[BATCH];
    unsigned count;
    int64_t offset;
} change;

void watch_unlist(watch *it);
void watch_gone(ErlNifEnv *env, void *object);
void change_note(state *s, bool always);
void change_take(state *s, change *it);
unsigned change_send(ErlNifEnv *env, state *s, change *it);
nif nif_monitor, nif_demonitor, nif_is_monitor;

/* --- moving.c and step.c -------------------------------------------------------------------------------------- */

bool is_much(const state *s);
bool enter_to_move(state *s);
int32_t run_on(state *s, int64_t step);
void leave_and_tell(ErlNifEnv *env, state *s);
nif nif_run, nif_leap, nif_tick, nif_drift, nif_finalize, nif_step, nif_free_run;

/* --- faults.c ------------------------------------------------------------------------------------------------- */

uint32_t wheel_for(state *s, const receiver *to);
void wheels_in_turn(const state *s, uint8_t order[MOST_WHEELS]);
bool is_late(const state *s, uint32_t wheel);
bool pay(ErlNifEnv *env, state *s);
nif nif_order, nif_serial, nif_late, nif_cost;

/* --- times.c and members.c ------------------------------------------------------------------------------------ */

ERL_NIF_TERM of_offset_state(uint32_t it);
nif nif_monotonic_time, nif_system_time, nif_time_offset, nif_os_time, nif_settings, nif_info;
ERL_NIF_TERM list_members(ErlNifEnv *env, const state *s);
ERL_NIF_TERM list_timers(ErlNifEnv *env, state *s);
ERL_NIF_TERM list_asleep(ErlNifEnv *env, state *s);
nif nif_lead, nif_unlead, nif_join, nif_leave, nif_members, nif_timers;

#endif
