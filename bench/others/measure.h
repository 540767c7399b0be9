/*
 * What bench/compare.c, bench/timers.c and the C programs of this directory share: the waits and the order that every
 * program makes from the same seeds, the passes, and the words of the command line. `bench/compare` calls each program as
 *
 *     PROGRAM OPERATION TIMERS CALLS PASSES
 *
 * and reads the line that it prints: the median and the least of the passes in nanoseconds for one operation,
 * and how many passes were made. The program ends with status 1 where a timer did otherwise than it has to.
 */
#ifndef MEASURE_H
#define MEASURE_H

#include <inttypes.h>
#include <malloc.h>
#include <stdint.h>
#include <stdio.h>
#include <stdlib.h>
#include <string.h>
#include <time.h>
#include <unistd.h>

/* Over how many milliseconds deadlines are spread. */
#define SPREAD 60000
/* The wait of a timer that is started and cancelled again, in milliseconds. */
#define TIMEOUT 5000
/* The timeouts of a server's connection and of its request, in milliseconds, and the packets that come in one. */
#define IDLE_TIMEOUT 60000
#define REQUEST_TIMEOUT 30000
#define PACKETS 100
/* How many passes are made at most. */
#define MOST_PASSES 100
/* How many are made where one takes longer than LONG_PASS nanoseconds. */
#define FEW_PASSES 3
#define LONG_PASS UINT64_C(2000000000)

/* What is measured: how many timers, how many calls a pass makes, the waits, the order of cancels, and the timer of each
 * call. */
struct measurement {
    size_t timers;
    size_t calls;
    uint32_t *waits;
    uint32_t *order;
    uint32_t *rounds;
};

/* An operation: makes one pass, and gives the nanoseconds that it took. */
struct operation {
    const char *name;
    uint64_t (*pass)(const struct measurement *);
    /* Whether a pass is divided by its calls, and not by its timers. */
    int by_calls;
};

static inline void expect(int holds)
{
    if (!holds) {
        fputs("a timer did otherwise than it has to\n", stderr);
        exit(1);
    }
}

static inline void *allocate(size_t count, size_t size)
{
    void *memory = malloc(count == 0 ? size : count * size);
    expect(memory != NULL);
    return memory;
}

/* Marsaglia's xorshift of 32 bits. */
static inline uint32_t next_random(uint32_t *state)
{
    *state ^= *state << 13;
    *state ^= *state >> 17;
    *state ^= *state << 5;
    return *state;
}

/* Waits of 1 to SPREAD milliseconds. */
static inline uint32_t *spread_waits(size_t count)
{
    uint32_t *waits = allocate(count, sizeof *waits);
    uint32_t state = 1;
    for (size_t i = 0; i < count; i++)
        waits[i] = next_random(&state) % SPREAD + 1;
    return waits;
}

/* The numbers below `count` in random order. */
static inline uint32_t *random_order(size_t count)
{
    uint32_t *order = allocate(count, sizeof *order);
    uint32_t state = 2;
    for (size_t i = 0; i < count; i++)
        order[i] = (uint32_t)i;
    for (size_t i = count; i > 1; i--) {
        size_t j = next_random(&state) % i;
        uint32_t kept = order[i - 1];
        order[i - 1] = order[j];
        order[j] = kept;
    }
    return order;
}

/* The timers of so many calls: each timer once in this order, then each once in another one, and so on. */
static inline uint32_t *rounds_of(const uint32_t *order, size_t count, size_t calls)
{
    uint32_t *rounds = allocate(calls, sizeof *rounds);
    for (size_t i = 0; i < calls && count > 0; i++) {
        size_t place = i % count;
        rounds[i] = i < count ? order[place] : rounds[i - place - count + order[place]];
    }
    return rounds;
}

/* A number that tells whether two programs have the same waits, or the same order. */
static inline uint32_t digest(const uint32_t *numbers, size_t count)
{
    uint32_t sum = 0;
    for (size_t i = 0; i < count; i++)
        sum = sum * 31 + numbers[i];
    return sum;
}

/* The machine's clock. A program that moves another one (moved_clock.h) says how this is called in it. */
#ifndef MACHINE_CLOCK
#define MACHINE_CLOCK clock_gettime
#endif

static inline uint64_t nanoseconds(void)
{
    struct timespec now;
    expect(MACHINE_CLOCK(CLOCK_MONOTONIC, &now) == 0);
    return (uint64_t)now.tv_sec * 1000000000 + (uint64_t)now.tv_nsec;
}

/* The bytes of memory that the process has (Linux, proc(5), the second word of statm). */
static inline uint64_t resident(void)
{
    uint64_t pages = 0;
    FILE *file = fopen("/proc/self/statm", "r");
    expect(file != NULL && fscanf(file, "%*u %" SCNu64, &pages) == 1);
    fclose(file);
    return pages * (uint64_t)sysconf(_SC_PAGESIZE);
}

static inline int compare_times(const void *left, const void *right)
{
    uint64_t a = *(const uint64_t *)left;
    uint64_t b = *(const uint64_t *)right;
    return (a > b) - (a < b);
}

/* What a pass frees stays mapped, so that the next one doesn't measure how the kernel maps it again. An allocator that has no
 * such setting, as that of a sanitizer, ignores it. */
static inline void keep_memory(void)
{
    (void)mallopt(M_MMAP_THRESHOLD, INT32_MAX);
    (void)mallopt(M_TRIM_THRESHOLD, INT32_MAX);
}

/* Makes the passes of an operation, and prints its line. */
static inline void measure(const struct operation *operation, const struct measurement *what, size_t passes)
{
    uint64_t taken[MOST_PASSES];
    double each = (double)(operation->by_calls ? what->calls : what->timers);
    size_t made = 0;
    keep_memory();
    while (made < passes) {
        taken[made] = operation->pass(what);
        if (taken[made++] > LONG_PASS && passes > FEW_PASSES)
            passes = made > FEW_PASSES ? made : FEW_PASSES;
    }
    qsort(taken, made, sizeof taken[0], compare_times);
    printf("%.2f %.2f %zu\n", (double)taken[made / 2] / each, (double)taken[0] / each, made);
}

/* Prints what an operation asks for, and gives the status: `bytes` is the memory of so many timers. */
static inline int answer(const char *word, const struct measurement *what, size_t passes, const char *version,
                         const struct operation *operations, size_t count,
                         uint64_t (*bytes)(const struct measurement *))
{
    if (strcmp(word, "version") == 0) {
        puts(version);
        return 0;
    }
    if (strcmp(word, "order") == 0) {
        printf("%" PRIu32 " %" PRIu32 "\n", digest(what->waits, what->timers), digest(what->order, what->timers));
        return 0;
    }
    if (strcmp(word, "bytes") == 0) {
        printf("%.1f\n", (double)bytes(what) / (double)what->timers);
        return 0;
    }
    for (size_t i = 0; i < count; i++) {
        if (strcmp(word, operations[i].name) == 0 && passes > 0 && passes <= MOST_PASSES) {
            measure(&operations[i], what, passes);
            return 0;
        }
    }
    fputs("no such operation, or no such number of passes\n", stderr);
    return 2;
}

/* The program, but for what is measured. */
static inline int run(int argc, char **argv, const char *version, const struct operation *operations,
                      size_t count, uint64_t (*bytes)(const struct measurement *))
{
    if (argc != 5) {
        fputs("usage: PROGRAM OPERATION TIMERS CALLS PASSES\n", stderr);
        return 2;
    }
    struct measurement what = {.timers = strtoul(argv[2], NULL, 10), .calls = strtoul(argv[3], NULL, 10)};
    what.waits = spread_waits(what.timers);
    what.order = random_order(what.timers);
    what.rounds = rounds_of(what.order, what.timers, what.calls);
    int status = answer(argv[1], &what, strtoul(argv[4], NULL, 10), version, operations, count, bytes);
    free(what.waits);
    free(what.order);
    free(what.rounds);
    return status;
}

#endif
