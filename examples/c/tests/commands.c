/*
 * The commands over texts: what they answer, buffers that are too small, and each allocation that a call makes refused in
 * turn. Linked with --wrap=malloc and --wrap=realloc; the address sanitizer tells at the end whether anything was lost.
 * (.ci/check_texts compares the answers with those of the programs.)
 */
#include <stdbool.h>
#include <stdio.h>
#include <stdlib.h>
#include <string.h>

#include "ertime_text.h"

void *__real_malloc(size_t size);
void *__real_realloc(void *block, size_t size);
void *__wrap_malloc(size_t size);
void *__wrap_realloc(void *block, size_t size);

/* The number of the allocation that fails, from 1, and how many were made; 0: none fails. */
static unsigned long refused, made;

static bool fails(void) { return ++made == refused; }

void *__wrap_malloc(size_t size) { return fails() ? NULL : __real_malloc(size); }

void *__wrap_realloc(void *block, size_t size) { return fails() ? NULL : __real_realloc(block, size); }

typedef uint32_t command(const uint8_t *text, size_t length, uint8_t *output, size_t room, uint8_t *errors,
                         size_t errors_room, ert_told *told);

typedef struct row {
    const char *what;
    command *call;
    const char *text;
    uint32_t status;
    const char *output, *errors;
} row;

static const row rows[] = {
    {"a scenario", ert_run, "{\"format\":1,\"first\":[0,0],\"ops\":[[\"time\"],[\"tick\",5000000,5000000],[\"time\"]]}",
     ERT_TEXT_DONE, "time 0\ntick 5000000\ntime 5000000\nend 5000000\n", ""},
    {"no text", ert_run, "", ERT_TEXT_REFUSED, "refused json\n", "scenario:1:1: expected a value here\n"},
    {"an unknown op", ert_run, "{\"format\":1,\"first\":[0,0],\"ops\":[[\"time\"],[\"tiem\"]]}", ERT_TEXT_REFUSED,
     "refused shape 2\n", "scenario:1:44: op 2: there is no op \"tiem\"; did you mean \"time\"?\n"},
    {"a legal history", ert_judge, "settings no false 0 1 1 1 1 0 0\nk c0 tick 0 1000000 plain 1000000\n", ERT_TEXT_DONE,
     "legal 1\n", ""},
    {"an illegal history", ert_judge, "settings no false 0 1 1 1 1 0 0\nk c0 tick -1 0 plain 0\n", ERT_TEXT_ILLEGAL,
     "illegal 2\n", "history:2: k c0 tick -1 0 plain 0: its reading isn't valid\n"},
    {"no history", ert_judge, "settings no false 0 1 1 1 1 0 0", ERT_TEXT_REFUSED, "refused 1\n",
     "history:1: the line has no newline at its end\n"},
};

static int failed;

static void expect(const char *what, const char *part, bool is_so) {
    if (!is_so) {
        fprintf(stderr, "%s: %s\n", what, part);
        failed = 1;
    }
}

/* A buffer on the heap, of just so many bytes, so that the address sanitizer sees each other one that is touched. */
static uint8_t *buffer_of(size_t room) {
    uint8_t *at = malloc(room != 0 ? room : 1);
    if (at == NULL) {
        abort();
    }
    memset(at, '?', room != 0 ? room : 1);
    return at;
}

/* Whether a buffer has as much of a text as fits, and is as it was behind that. */
static bool has_front(const uint8_t *buffer, size_t room, const char *text) {
    size_t length = strlen(text), front = length < room ? length : room;
    bool is_so = memcmp(buffer, text, front) == 0;
    for (size_t at = front; at < room; at++) {
        is_so = is_so && buffer[at] == '?';
    }
    return is_so;
}

/*
 * Whether a message is that of a row, or one that had too little memory for the piece of the text that it shows or for the
 * name that it proposes: a line with the same first word.
 */
static bool is_message(const row *it, const uint8_t *errors, size_t length, bool was_refused) {
    size_t whole = strlen(it->errors), word = strcspn(it->errors, ":");
    if (length == whole && memcmp(errors, it->errors, whole) == 0) {
        return true;
    }
    return was_refused && word < length && length < whole && memcmp(errors, it->errors, word + 1) == 0 &&
           memchr(errors, '\n', length) == errors + length - 1;
}

/* Makes the call of a row with these rooms, where the allocation of a number is refused, and tells whether one was. */
static bool answered(const row *it, size_t room, size_t errors_room, unsigned long number) {
    size_t length = strlen(it->text);
    uint8_t *text = buffer_of(length), *output = buffer_of(room), *errors = buffer_of(errors_room);
    ert_told told = {99, 99};
    memcpy(text, it->text, length);
    made = 0;
    refused = number;
    uint32_t status = it->call(text, length, output, room, errors, errors_room, &told);
    refused = 0;
    bool was_refused = number != 0 && made >= number;
    if (status == ERT_TEXT_NO_MEMORY && was_refused) {
        expect(it->what, "something is told without memory", told.output == 0 && told.errors == 0);
        expect(it->what, "a buffer changes without memory",
               has_front(output, room, "") && has_front(errors, errors_room, ""));
    } else {
        expect(it->what, "another status", status == it->status);
        expect(it->what, "another length of the output", told.output == strlen(it->output));
        expect(it->what, "another output", has_front(output, room, it->output));
        if (number != 0) {
            expect(it->what, "another message", is_message(it, errors, told.errors, was_refused));
        } else {
            expect(it->what, "another length of the message", told.errors == strlen(it->errors));
            expect(it->what, "another message", has_front(errors, errors_room, it->errors));
        }
    }
    free(text);
    free(output);
    free(errors);
    return was_refused;
}

/* Each room that is too small, and one that is too large. */
static void in_each_room(const row *it) {
    for (size_t room = 0; room <= strlen(it->output) + 1; room++) {
        answered(it, room, 200, 0);
    }
    for (size_t room = 0; room <= strlen(it->errors) + 1; room++) {
        answered(it, 200, room, 0);
    }
}

static void without_memory(const row *it) {
    unsigned long number = 1;
    while (answered(it, 200, 200, number)) {
        number += 1;
    }
    expect(it->what, "no allocation was refused", number > 1);
}

/* One byte more than a text may have, and just as many. */
static void at_the_limit(command *call) {
    static uint8_t text[ERT_TEXT_MOST + 1], output[100], errors[200];
    ert_told told = {99, 99};
    memset(text, ' ', sizeof text);
    expect("a byte too many", "another status",
           call(text, sizeof text, output, sizeof output, errors, sizeof errors, &told) == ERT_TEXT_TOO_LONG);
    expect("a byte too many", "something is told", told.output == 0 && told.errors == 0);
    expect("the most bytes", "another status",
           call(text, sizeof text - 1, output, sizeof output, errors, sizeof errors, &told) == ERT_TEXT_REFUSED);
}

int main(void) {
    for (size_t at = 0; at < sizeof rows / sizeof rows[0]; at++) {
        in_each_room(&rows[at]);
        without_memory(&rows[at]);
    }
    at_the_limit(ert_run);
    at_the_limit(ert_judge);
    return failed ? EXIT_FAILURE : EXIT_SUCCESS;
}
