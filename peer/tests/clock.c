/* Tests of ertime_peer_clock.c, whole and with sanitizers, in a program of its own in the place of a node. */
#include "../ertime_peer_clock.c"

#include <assert.h>
#include <stdio.h>

/* The arguments of the NIF are the addresses of numbers here, and one of 0 is no number. */
int enif_get_int64(ErlNifEnv *env, ERL_NIF_TERM term, ErlNifSInt64 *number)
{
    (void)env;
    if (term == 0) {
        return 0;
    }
    *number = *(const ErlNifSInt64 *)term;
    return 1;
}

ERL_NIF_TERM enif_make_badarg(ErlNifEnv *env)
{
    (void)env;
    return 1;
}

ERL_NIF_TERM enif_make_atom(ErlNifEnv *env, const char *name)
{
    (void)env;
    return (ERL_NIF_TERM)name;
}

static void sets(ErlNifSInt64 monotonic, ErlNifSInt64 system)
{
    const ERL_NIF_TERM arguments[] = {(ERL_NIF_TERM)&monotonic, (ERL_NIF_TERM)&system};
    assert(set(NULL, 2, arguments) != 1);
}

static void reads(clockid_t clock, int64_t seconds, int64_t nanoseconds)
{
    struct timespec read;
    assert(clock_gettime(clock, &read) == 0);
    assert(read.tv_sec == seconds && read.tv_nsec == nanoseconds);
}

/* Each clock of the wall or of monotonic time is held; those of processor time aren't. */
static void holds_clocks(void)
{
    sets(INT64_C(1000000000007), INT64_C(-1));
    const clockid_t monotonic[] = {CLOCK_MONOTONIC, CLOCK_MONOTONIC_RAW, CLOCK_MONOTONIC_COARSE, CLOCK_BOOTTIME};
    for (size_t at = 0; at < sizeof monotonic / sizeof *monotonic; at++) {
        reads(monotonic[at], 1000, 7);
    }
    reads(CLOCK_REALTIME, -1, 999999999);
    reads(CLOCK_REALTIME_COARSE, -1, 999999999);
    struct timespec used;
    assert(clock_gettime(CLOCK_PROCESS_CPUTIME_ID, &used) == 0 && used.tv_sec < 1000);
    struct timeval day;
    assert(gettimeofday(&day, NULL) == 0 && day.tv_sec == -1 && day.tv_usec == 999999);
    time_t seconds = 0;
    assert(time(&seconds) == -1 && seconds == -1 && time(NULL) == -1);
}

/* Both ends of 64 bits, and whole seconds before 1970. */
static void takes_any_number(void)
{
    sets(INT64_MAX, INT64_MIN);
    reads(CLOCK_MONOTONIC, 9223372036, 854775807);
    reads(CLOCK_REALTIME, -9223372037, 145224192);
    sets(0, -2 * SECOND);
    reads(CLOCK_MONOTONIC, 0, 0);
    reads(CLOCK_REALTIME, -2, 0);
}

/* What isn't a number changes nothing. */
static void refuses_others(void)
{
    const ErlNifSInt64 number = 5;
    const ERL_NIF_TERM first[] = {0, (ERL_NIF_TERM)&number};
    const ERL_NIF_TERM second[] = {(ERL_NIF_TERM)&number, 0};
    sets(3, 4);
    assert(set(NULL, 2, first) == 1 && set(NULL, 2, second) == 1);
    reads(CLOCK_MONOTONIC, 0, 3);
    reads(CLOCK_REALTIME, 0, 4);
}

/* The variable has two numbers, or it is as if there were none. */
static void reads_variable(void)
{
    const char *others[] = {"", "5", "5 ", "5 6 7", "5 6x", "x 6", "99999999999999999999 1"};
    for (size_t at = 0; at < sizeof others / sizeof *others; at++) {
        atomic_store(&is_held, false);
        setenv("ERTIME_PEER_CLOCK", others[at], 1);
        hold_from_start();
        assert(!atomic_load(&is_held));
    }
    setenv("ERTIME_PEER_CLOCK", "8 -1000000009", 1);
    hold_from_start();
    reads(CLOCK_MONOTONIC, 0, 8);
    reads(CLOCK_REALTIME, -2, 999999991);
}

int main(void)
{
    assert(!atomic_load(&is_held));
    struct timespec now;
    assert(clock_gettime(CLOCK_REALTIME, &now) == 0 && now.tv_sec > 0);
    holds_clocks();
    takes_any_number();
    refuses_others();
    reads_variable();
    puts("the held clocks answer");
    return 0;
}
