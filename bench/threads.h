/*
 * Passes of several threads: nanoseconds for a call overall, which is the time of a pass, from where its first thread begins
 * to where its last one ends, over the calls of all threads. It is the least of some passes.
 *
 * Each thread has a processor of its own, if there are as many, and waits without sleeping until all are there. So a pass
 * tells what the calls cost the threads, and not where and when the system lets these run. Passes are short, since a pass
 * in which something else ran on one of the processors counts for nothing.
 */
#ifndef THREADS_H
#define THREADS_H

#include <pthread.h>
#include <sched.h>
#include <stdatomic.h>
#include <stdint.h>
#include <stdio.h>
#include <stdlib.h>
#include <time.h>

enum { CALLS = 10000, TIMERS = 16384, MOST_THREADS = 4 };

/* What a thread does in a pass, by its number. */
typedef void job(int thread);

static int passes = 600; /* of a row */
static job *done_in_a_pass;
static pthread_barrier_t gate;
static int threads_of_pass;
static atomic_int there;
static int64_t begun[MOST_THREADS], ended[MOST_THREADS];

static int64_t nanoseconds(void) {
    struct timespec t;
    clock_gettime(CLOCK_MONOTONIC, &t);
    return (int64_t)t.tv_sec * 1000000000 + t.tv_nsec;
}

/* Gives the calling thread the processor of this number among those that the program may use. */
static void take_processor(int number) {
    cpu_set_t all, one;
    CPU_ZERO(&one);
    if (sched_getaffinity(0, sizeof all, &all) != 0) {
        return;
    }
    for (size_t processor = 0; processor < CPU_SETSIZE; processor++) {
        if (CPU_ISSET(processor, &all) && number-- == 0) {
            CPU_SET(processor, &one);
            sched_setaffinity(0, sizeof one, &one);
        }
    }
}

static void *make_passes(void *number) {
    int thread = (int)(intptr_t)number;
    take_processor(thread);
    for (int pass = 0; pass < passes; pass++) {
        pthread_barrier_wait(&gate);
        atomic_fetch_add(&there, 1);
        while (atomic_load(&there) < threads_of_pass) {
        }
        begun[thread] = nanoseconds();
        done_in_a_pass(thread);
        ended[thread] = nanoseconds();
        pthread_barrier_wait(&gate);
    }
    return NULL;
}

/* The nanoseconds for a call. `before` is called before each pass. */
static double least(int threads, job *what, void (*before)(int threads), int calls) {
    pthread_t running[MOST_THREADS];
    int64_t best = INT64_MAX;
    done_in_a_pass = what;
    threads_of_pass = threads;
    pthread_barrier_init(&gate, NULL, (unsigned)threads + 1);
    for (int i = 0; i < threads; i++) {
        if (pthread_create(&running[i], NULL, make_passes, (void *)(intptr_t)i) != 0) {
            exit(EXIT_FAILURE);
        }
    }
    for (int pass = 0; pass < passes; pass++) {
        if (before != NULL) {
            before(threads);
        }
        atomic_store(&there, 0);
        pthread_barrier_wait(&gate);
        pthread_barrier_wait(&gate);
        int64_t begin = begun[0], end = ended[0];
        for (int i = 1; i < threads; i++) {
            begin = begun[i] < begin ? begun[i] : begin;
            end = ended[i] > end ? ended[i] : end;
        }
        best = end - begin < best ? end - begin : best;
    }
    for (int i = 0; i < threads; i++) {
        pthread_join(running[i], NULL);
    }
    pthread_barrier_destroy(&gate);
    return (double)best / calls / threads;
}

/* Prints a row: its name, the threads and the nanoseconds. */
static inline void measure(const char *name, int threads, job *what, void (*before)(int threads), int calls) {
    printf("%s %d %.1f\n", name, threads, least(threads, what, before, calls));
}

/* In which order the timers of a thread are cancelled: each once, and none beside the one before. */
static int cancelled_next(int i) {
    return i * 7919 % TIMERS;
}

#endif
