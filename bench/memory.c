/* The bytes that the library asks of malloc and realloc when a service is opened, and of them those that it keeps.
 *
 *     memory SCHEDULERS PROCESSES SLOTS CALLERS
 *
 * It is linked with --wrap=malloc, --wrap=realloc and --wrap=free, so that each block is counted. */
#include <inttypes.h>
#include <stddef.h>
#include <stdio.h>
#include <stdlib.h>

#include "ertime.h"

void *__real_malloc(size_t size);
void *__real_realloc(void *at, size_t size);
void __real_free(void *at);

/* A block is preceded by its size, in room that keeps it aligned. */
enum { BEFORE = 16 };

static size_t held, most;

static size_t *size_of(char *block) {
    return (size_t *)(void *)(block - BEFORE);
}

static void *counted(char *block, size_t size, size_t before) {
    if (block == NULL) {
        return NULL;
    }
    *(size_t *)(void *)block = size;
    held += size - before;
    most = held > most ? held : most;
    return block + BEFORE;
}

void *__wrap_malloc(size_t size) {
    return counted(__real_malloc(size + BEFORE), size, 0);
}

void *__wrap_realloc(void *at, size_t size) {
    size_t before = at == NULL ? 0 : *size_of(at);
    return counted(__real_realloc(at == NULL ? NULL : (char *)at - BEFORE, size + BEFORE), size, before);
}

void __wrap_free(void *at) {
    if (at != NULL) {
        held -= *size_of(at);
        __real_free((char *)at - BEFORE);
    }
}

int main(int count, char **words) {
    if (count != 5) {
        fprintf(stderr, "usage: memory SCHEDULERS PROCESSES SLOTS CALLERS\n");
        return 2;
    }
    uint32_t numbers[4];
    for (int at = 0; at < 4; at++) {
        numbers[at] = (uint32_t)strtoul(words[at + 1], NULL, 10);
    }
    ert_world world = ERT_INIT;
    ert_settings settings = {
        .size = sizeof settings,
        .correction = 1,
        .schedulers = numbers[0],
        .processes = numbers[1],
        .slots = numbers[2],
        .callers = numbers[3],
        .looks = 64,
    };
    int32_t status = ert_world_open(&world, &settings);
    if (status != ERT_OK) {
        fprintf(stderr, "ert_world_open: status %" PRId32 "\n", status);
        return 1;
    }
    printf("%zu %zu\n", most, held);
    ert_world_close(&world);
    if (held != 0) {
        fprintf(stderr, "%zu bytes are left after the close\n", held);
        return 1;
    }
    return 0;
}
