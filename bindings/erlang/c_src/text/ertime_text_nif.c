/*
 * The NIF of the module ertime_text: the commands of the programs over texts in memory, by the C library of them
 * (ertime_text.h). It is a file of its own, which is loaded by the first call: that library is several times as large as
 * the one of the clocks, and a test of timers needs none of it.
 *
 * A call takes as long as its text asks for, so it is made on a dirty scheduler. Of the stack there, 320 KB by default, it
 * takes 143 KB at most, where a text has the most brackets within each other (x86-64). It has two binaries, for the output
 * and for the message, with room for what most texts get. Where one was too small the call is made again, with the room
 * that it told. The binaries are cut to what they hold, and become the caller's, or are let go of: nothing else is kept.
 */
#include <erl_nif.h>
#include <ertime_text.h>
#include <stdbool.h>
#include <stddef.h>
#include <stdint.h>

#define UNUSED(name) ((void)(name))

enum { ROOM = 1024 }; /* of a message at first, and of an output beside the length of its text */

typedef uint32_t command(const uint8_t *text, size_t length, uint8_t *output, size_t room, uint8_t *errors,
                         size_t errors_room, ert_told *told);

/* Both texts of an answer. */
typedef struct {
    ErlNifBinary output;
    ErlNifBinary errors;
} answer;

static const char *name_of(uint32_t status) {
    switch (status) {
    case ERT_TEXT_DONE:
        return "done";
    case ERT_TEXT_ILLEGAL:
        return "illegal";
    case ERT_TEXT_REFUSED:
        return "refused";
    case ERT_TEXT_TOO_LONG:
        return "too_long";
    default:
        return "no_memory";
    }
}

static bool is_told(uint32_t status) {
    return status == ERT_TEXT_DONE || status == ERT_TEXT_ILLEGAL || status == ERT_TEXT_REFUSED;
}

static void answer_release(answer *it) {
    enif_release_binary(&it->output);
    enif_release_binary(&it->errors);
}

/* Makes room, or answers false and has none where there is no memory. */
static bool answer_alloc(answer *it, size_t room, size_t errors_room) {
    if (!enif_alloc_binary(room, &it->output)) {
        return false;
    }
    if (!enif_alloc_binary(errors_room, &it->errors)) {
        enif_release_binary(&it->output);
        return false;
    }
    return true;
}

/* Lets go of the room that wasn't needed. */
static bool answer_cut(answer *it, const ert_told *told) {
    return enif_realloc_binary(&it->output, told->output) && enif_realloc_binary(&it->errors, told->errors);
}

static size_t most(size_t one, size_t other) {
    return one > other ? one : other;
}

/* The status, and where it tells something, both texts of it in `it`. */
static uint32_t answer_of(command *call, const ErlNifBinary *text, answer *it) {
    ert_told told = {text->size + ROOM, ROOM};
    size_t room = 0, errors_room = 0;
    uint32_t status = ERT_TEXT_NO_MEMORY;
    while (told.output > room || told.errors > errors_room) {
        if (room != 0) {
            answer_release(it);
        }
        room = most(room, told.output);
        errors_room = most(errors_room, told.errors);
        if (!answer_alloc(it, room, errors_room)) {
            return ERT_TEXT_NO_MEMORY;
        }
        const uint8_t *from = text->size != 0 ? text->data : (const uint8_t *)"";
        status = call(from, text->size, it->output.data, room, it->errors.data, errors_room, &told);
    }
    if (is_told(status) && !answer_cut(it, &told)) {
        status = ERT_TEXT_NO_MEMORY;
    }
    if (!is_told(status)) {
        answer_release(it);
    }
    return status;
}

/* {Status, Output, Message}, or the status alone where both texts would be empty. */
static ERL_NIF_TERM called(command *call, ErlNifEnv *env, ERL_NIF_TERM given) {
    ErlNifBinary text;
    if (!enif_inspect_binary(env, given, &text)) {
        return enif_make_badarg(env);
    }
    answer found;
    uint32_t status = answer_of(call, &text, &found);
    ERL_NIF_TERM name = enif_make_atom(env, name_of(status));
    if (!is_told(status)) {
        return name;
    }
    ERL_NIF_TERM output = enif_make_binary(env, &found.output);
    return enif_make_tuple3(env, name, output, enif_make_binary(env, &found.errors));
}

static ERL_NIF_TERM nif_run(ErlNifEnv *env, int argc, const ERL_NIF_TERM argv[]) {
    UNUSED(argc);
    return called(ert_run, env, argv[0]);
}

static ERL_NIF_TERM nif_judge(ErlNifEnv *env, int argc, const ERL_NIF_TERM argv[]) {
    UNUSED(argc);
    return called(ert_judge, env, argv[0]);
}

/* The module may be loaded again: there is nothing to be taken over. */
static int upgrade(ErlNifEnv *env, void **private, void **old, ERL_NIF_TERM info) {
    UNUSED(env);
    UNUSED(private);
    UNUSED(old);
    UNUSED(info);
    return 0;
}

static ErlNifFunc functions[] = {
    {"ran", 1, nif_run, ERL_NIF_DIRTY_JOB_CPU_BOUND},
    {"judged", 1, nif_judge, ERL_NIF_DIRTY_JOB_CPU_BOUND},
};

ERL_NIF_INIT(ertime_text, functions, NULL, NULL, upgrade, NULL)
