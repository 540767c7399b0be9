/*
 * Tells the thread sanitizer what orders the threads of the emulator, which isn't built for it: its mutexes, the wait for
 * a condition, and the way of a resource from one process to another. For random calls under it, by hand, where WRAPS are
 * `-Wl,--wrap=NAME' for each __wrap_NAME here:
 *
 *     make -C c_src SANITIZE=thread SOURCES="$(cd c_src && echo *.c) ../test/threads.c" LDFLAGS="WRAPS"
 *     setarch -R env ROOTDIR=.. BINDIR=.. EMU=beam PROGNAME=erl LD_PRELOAD=$(cc -print-file-name=libtsan.so) \
 *       TSAN_OPTIONS=detect_deadlocks=0:ignore_noninstrumented_modules=1:report_thread_leaks=0 \
 *       $BINDIR/erlexec +Mea min -noshell -pa .. -run ertime_chaos main SECONDS
 *
 * (`erl' itself is a script of the shell, in which the sanitizer's library ends.)
 */
#include <erl_nif.h>

void __tsan_acquire(void *address);
void __tsan_release(void *address);

void __real_enif_mutex_lock(ErlNifMutex *it);
void __real_enif_mutex_unlock(ErlNifMutex *it);
void __real_enif_cond_wait(ErlNifCond *condition, ErlNifMutex *it);
ERL_NIF_TERM __real_enif_make_resource(ErlNifEnv *env, void *object);
int __real_enif_get_resource(ErlNifEnv *env, ERL_NIF_TERM term, ErlNifResourceType *type, void **object);
void __real_enif_release_resource(void *object);
ErlNifResourceType *__real_enif_open_resource_type_x(ErlNifEnv *env, const char *name, const ErlNifResourceTypeInit *init,
                                                     ErlNifResourceFlags flags, ErlNifResourceFlags *tried);
void __wrap_enif_mutex_lock(ErlNifMutex *it);
void __wrap_enif_mutex_unlock(ErlNifMutex *it);
void __wrap_enif_cond_wait(ErlNifCond *condition, ErlNifMutex *it);
ERL_NIF_TERM __wrap_enif_make_resource(ErlNifEnv *env, void *object);
int __wrap_enif_get_resource(ErlNifEnv *env, ERL_NIF_TERM term, ErlNifResourceType *type, void **object);
void __wrap_enif_release_resource(void *object);
ErlNifResourceType *__wrap_enif_open_resource_type_x(ErlNifEnv *env, const char *name, const ErlNifResourceTypeInit *init,
                                                     ErlNifResourceFlags flags, ErlNifResourceFlags *tried);

void __wrap_enif_mutex_lock(ErlNifMutex *it) {
    __real_enif_mutex_lock(it);
    __tsan_acquire(it);
}

void __wrap_enif_mutex_unlock(ErlNifMutex *it) {
    __tsan_release(it);
    __real_enif_mutex_unlock(it);
}

void __wrap_enif_cond_wait(ErlNifCond *condition, ErlNifMutex *it) {
    __tsan_release(it);
    __real_enif_cond_wait(condition, it);
    __tsan_acquire(it);
}

/* Whoever has a term for it knows all that was done with it before; whoever runs its destructor too. */
ERL_NIF_TERM __wrap_enif_make_resource(ErlNifEnv *env, void *object) {
    __tsan_release(object);
    return __real_enif_make_resource(env, object);
}

int __wrap_enif_get_resource(ErlNifEnv *env, ERL_NIF_TERM term, ErlNifResourceType *type, void **object) {
    int is = __real_enif_get_resource(env, term, type, object);
    if (is) {
        __tsan_acquire(*object);
    }
    return is;
}

void __wrap_enif_release_resource(void *object) {
    __tsan_release(object);
    __real_enif_release_resource(object);
}

/* --- callbacks ------------------------------------------------------------------------------------------------ */

enum { TYPES = 8 };

static ErlNifResourceTypeInit of_type[TYPES];
static unsigned types;

static void down(ErlNifEnv *env, void *object, ErlNifPid *pid, ErlNifMonitor *monitor) {
    __tsan_acquire(object);
    for (unsigned i = 0; i < types; i++) { /* one type alone has it */
        if (of_type[i].down != NULL) {
            of_type[i].down(env, object, pid, monitor);
            return;
        }
    }
}

#define DESTRUCTOR(N) \
    static void destructor_##N(ErlNifEnv *env, void *object) { \
        __tsan_acquire(object); \
        of_type[N].dtor(env, object); \
    }
DESTRUCTOR(0)
DESTRUCTOR(1)
DESTRUCTOR(2)

static ErlNifResourceDtor *const destructors[] = {destructor_0, destructor_1, destructor_2};

ErlNifResourceType *__wrap_enif_open_resource_type_x(ErlNifEnv *env, const char *name, const ErlNifResourceTypeInit *init,
                                                     ErlNifResourceFlags flags, ErlNifResourceFlags *tried) {
    ErlNifResourceTypeInit with = *init;
    of_type[types] = *init;
    with.dtor = destructors[types];
    with.down = init->down != NULL ? down : NULL;
    types += 1;
    return __real_enif_open_resource_type_x(env, name, &with, flags, tried);
}
