/*
 * Measures how long each function of the NIF holds a normal scheduler: the processor time that its thread takes, so that
 * what else the machine does counts little. Each is wrapped where the emulator is given it (ertime_nif.c), by
 * `-Wl,--wrap=NAME' for each name in FUNCTIONS. At the end of the runtime a line for each function goes to the file that
 * ERTIME_LONGEST names: its name, how often a scheduler called it, and the nanoseconds of the longest call.
 * `.ci/longest_calls' builds and runs it.
 */
#define _POSIX_C_SOURCE 200809L
#include "../c_src/ertime_nif.h"
#include <stdio.h>
#include <stdlib.h>
#include <time.h>

#define FUNCTIONS(EACH) \
    EACH(nif_open) \
    EACH(nif_close) \
    EACH(nif_monotonic_time) \
    EACH(nif_system_time) \
    EACH(nif_time_offset) \
    EACH(nif_os_time) \
    EACH(nif_settings) \
    EACH(nif_info) \
    EACH(nif_start) \
    EACH(nif_cancel) \
    EACH(nif_stop) \
    EACH(nif_read) \
    EACH(nif_is_timer) \
    EACH(nif_monitor) \
    EACH(nif_demonitor) \
    EACH(nif_is_monitor) \
    EACH(nif_step) \
    EACH(nif_run) \
    EACH(nif_leap) \
    EACH(nif_tick) \
    EACH(nif_drift) \
    EACH(nif_finalize) \
    EACH(nif_free_run) \
    EACH(nif_order) \
    EACH(nif_serial) \
    EACH(nif_late) \
    EACH(nif_cost) \
    EACH(nif_lead) \
    EACH(nif_unlead) \
    EACH(nif_join) \
    EACH(nif_leave) \
    EACH(nif_members) \
    EACH(nif_timers)

#define CALLBACKS(EACH) \
    EACH(clock_gone, (ErlNifEnv *env, void *object), (env, object)) \
    EACH(timer_gone, (ErlNifEnv *env, void *object), (env, object)) \
    EACH(watch_gone, (ErlNifEnv *env, void *object), (env, object)) \
    EACH(process_down, (ErlNifEnv *env, void *object, ErlNifPid *pid, ErlNifMonitor *monitor), (env, object, pid, monitor))

#define NUMBER(NAME) OF_##NAME,
#define NUMBER_OF(NAME, PARAMETERS, ARGUMENTS) OF_##NAME,
enum { FUNCTIONS(NUMBER) CALLBACKS(NUMBER_OF) ALL };

#define TEXT(NAME) #NAME,
#define TEXT_OF(NAME, PARAMETERS, ARGUMENTS) #NAME,
static const char *const names[] = {FUNCTIONS(TEXT) CALLBACKS(TEXT_OF)};

static atomic_llong calls[ALL], longest[ALL];

static long long now(void) {
    struct timespec at;
    clock_gettime(CLOCK_THREAD_CPUTIME_ID, &at);
    return at.tv_sec * 1000000000LL + at.tv_nsec;
}

static void note(unsigned which, long long began) {
    long long took = now() - began;
    if (!on_scheduler()) {
        return;
    }
    calls[which] += 1;
    for (long long most = longest[which]; took > most && !atomic_compare_exchange_weak(&longest[which], &most, took);) {
    }
}

#define WRAPPED(NAME) \
    nif __real_##NAME, __wrap_##NAME; \
    ERL_NIF_TERM __wrap_##NAME(ErlNifEnv *env, int argc, const ERL_NIF_TERM argv[]) { \
        long long began = now(); \
        ERL_NIF_TERM answer = __real_##NAME(env, argc, argv); \
        note(OF_##NAME, began); \
        return answer; \
    }
FUNCTIONS(WRAPPED)

#define WRAPPED_OF(NAME, PARAMETERS, ARGUMENTS) \
    void __real_##NAME PARAMETERS; \
    void __wrap_##NAME PARAMETERS; \
    void __wrap_##NAME PARAMETERS { \
        long long began = now(); \
        __real_##NAME ARGUMENTS; \
        note(OF_##NAME, began); \
    }
CALLBACKS(WRAPPED_OF)

static __attribute__((destructor)) void tell(void) {
    const char *name = getenv("ERTIME_LONGEST");
    FILE *file = name != NULL ? fopen(name, "w") : NULL;
    if (file == NULL) {
        return;
    }
    for (unsigned i = 0; i < ALL; i++) {
        fprintf(file, "%s %lld %lld\n", names[i], calls[i], longest[i]);
    }
    fclose(file);
}
