/* The OS clocks of an Erlang node, as the driver of peer/compare sets them.
 *
 * One shared object in two roles. Preloaded into the runtime system (LD_PRELOAD), it answers clock_gettime,
 * gettimeofday and time from two words. Loaded once more as the NIF of the module ertime_peer_clock, it is the same
 * object with the same words, and `set` writes them. A NIF call is no scheduling point, so no timer can expire between
 * a new reading and what the driver does next, and nothing polls a file.
 *
 * Before the first `set` the words have what the variable ERTIME_PEER_CLOCK says: OS monotonic and OS system time in
 * nanoseconds, two decimal numbers with a blank between. Without it the kernel answers, as it always does for the
 * clocks of processor time.
 */
#define _GNU_SOURCE
#include <erl_nif.h>

#include <errno.h>
#include <stdatomic.h>
#include <stdbool.h>
#include <stdint.h>
#include <stdlib.h>
#include <sys/syscall.h>
#include <sys/time.h>
#include <time.h>
#include <unistd.h>

#define SECOND INT64_C(1000000000)

/* Threads of the runtime system read these while a scheduler writes them. */
static atomic_bool is_held;
static _Atomic int64_t os_monotonic;
static _Atomic int64_t os_system;

static void hold(int64_t monotonic, int64_t system)
{
    atomic_store(&os_monotonic, monotonic);
    atomic_store(&os_system, system);
    atomic_store(&is_held, true);
}

__attribute__((constructor)) static void hold_from_start(void)
{
    const char *text = getenv("ERTIME_PEER_CLOCK");
    if (text == NULL) {
        return;
    }
    char *rest = NULL;
    errno = 0;
    const int64_t monotonic = strtoll(text, &rest, 10);
    char *end = NULL;
    const int64_t system = strtoll(rest, &end, 10);
    if (errno == 0 && rest != text && end != rest && *end == '\0') {
        hold(monotonic, system);
    }
}

/* The time of day before 1970 has negative seconds, and nanoseconds that count up. */
static struct timespec timespec_of(int64_t nanoseconds)
{
    struct timespec parts = {.tv_sec = nanoseconds / SECOND, .tv_nsec = nanoseconds % SECOND};
    if (parts.tv_nsec < 0) {
        parts.tv_sec -= 1;
        parts.tv_nsec += SECOND;
    }
    return parts;
}

__attribute__((visibility("default"))) int clock_gettime(clockid_t clock, struct timespec *answer)
{
    if (atomic_load(&is_held)) {
        switch (clock) {
        case CLOCK_REALTIME:
        case CLOCK_REALTIME_COARSE:
            *answer = timespec_of(atomic_load(&os_system));
            return 0;
        case CLOCK_MONOTONIC:
        case CLOCK_MONOTONIC_RAW:
        case CLOCK_MONOTONIC_COARSE:
        case CLOCK_BOOTTIME:
            *answer = timespec_of(atomic_load(&os_monotonic));
            return 0;
        default:
            break;
        }
    }
    return (int)syscall(SYS_clock_gettime, clock, answer);
}

__attribute__((visibility("default"))) int gettimeofday(struct timeval *restrict answer, void *restrict zone)
{
    (void)zone;
    struct timespec now;
    if (clock_gettime(CLOCK_REALTIME, &now) != 0) {
        return -1;
    }
    answer->tv_sec = now.tv_sec;
    answer->tv_usec = now.tv_nsec / 1000;
    return 0;
}

__attribute__((visibility("default"))) time_t time(time_t *answer)
{
    struct timespec now;
    if (clock_gettime(CLOCK_REALTIME, &now) != 0) {
        return -1;
    }
    if (answer != NULL) {
        *answer = now.tv_sec;
    }
    return now.tv_sec;
}

/* ertime_peer_clock:set(Monotonic, System) -> ok */
static ERL_NIF_TERM set(ErlNifEnv *env, int argc, const ERL_NIF_TERM argv[])
{
    (void)argc;
    ErlNifSInt64 monotonic = 0;
    ErlNifSInt64 system = 0;
    if (!enif_get_int64(env, argv[0], &monotonic) || !enif_get_int64(env, argv[1], &system)) {
        return enif_make_badarg(env);
    }
    hold(monotonic, system);
    return enif_make_atom(env, "ok");
}

static ErlNifFunc functions[] = {{"set", 2, set, 0}};

ERL_NIF_INIT(ertime_peer_clock, functions, NULL, NULL, NULL, NULL)
