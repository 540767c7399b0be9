/*
 * In the place of what the NIF and the library allocate memory by: one call in OFTEN is refused. The linker puts it there
 * (--wrap), for the run of `ertime_chaos' that shows that each refusal is answered, and nothing lost by it.
 */
#include <erl_nif.h>
#include <stdatomic.h>
#include <stdbool.h>
#include <stddef.h>
#include <stdint.h>

enum { OFTEN = 64 };

/* A refusal by chance, so that each place gets one now and then. */
static bool is_refused(void) {
    static _Atomic uint64_t calls = 0;
    uint64_t mixed = (atomic_fetch_add(&calls, 1) + 1) * UINT64_C(0x9E3779B97F4A7C15);
    mixed = (mixed ^ (mixed >> 29)) * UINT64_C(0xBF58476D1CE4E5B9);
    return (mixed >> 32) % OFTEN == 0;
}

#define REFUSED(Result, name, refusal, parameters, ...) \
    Result __real_##name parameters;                    \
    Result __wrap_##name parameters;                    \
    Result __wrap_##name parameters {                   \
        return is_refused() ? (refusal) : __real_##name(__VA_ARGS__); \
    }

REFUSED(void *, malloc, NULL, (size_t size), size)
REFUSED(void *, realloc, NULL, (void *at, size_t size), at, size)
REFUSED(void *, enif_alloc, NULL, (size_t size), size)
REFUSED(int, enif_alloc_binary, 0, (size_t size, ErlNifBinary *it), size, it)
REFUSED(int, enif_realloc_binary, 0, (ErlNifBinary *it, size_t size), it, size)
REFUSED(ErlNifEnv *, enif_alloc_env, NULL, (void), )
REFUSED(void *, enif_alloc_resource, NULL, (ErlNifResourceType *type, size_t size), type, size)
REFUSED(ErlNifMutex *, enif_mutex_create, NULL, (char *name), name)
REFUSED(ErlNifCond *, enif_cond_create, NULL, (char *name), name)
REFUSED(int, enif_thread_create, 12, (char *name, ErlNifTid *id, void *(*run)(void *), void *with, ErlNifThreadOpts *options),
        name, id, run, with, options)
