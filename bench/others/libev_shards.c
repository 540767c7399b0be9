/*
 * The rows start_cancel and cancel of bench/shards.c by libev: each thread has a loop of its own with a mutex round it, which
 * whoever starts or stops a timer of that loop holds. The loops don't run: a start takes the time that the loop saw last.
 */
#define _GNU_SOURCE
#include <ev.h>

#include "../threads.h"

typedef struct {
    pthread_mutex_t lock;
    struct ev_loop *loop;
    ev_timer timers[TIMERS];
    ev_timer one;
    char apart[128];
} worker;

static worker workers[MOST_THREADS];
static int others;

static void on_due(EV_P_ ev_timer *timer, int events)
{
    (void)loop;
    (void)timer;
    (void)events;
}

static void start(worker *w, ev_timer *timer, double seconds)
{
    pthread_mutex_lock(&w->lock);
    ev_timer_init(timer, on_due, seconds, 0.);
    ev_timer_start(w->loop, timer);
    pthread_mutex_unlock(&w->lock);
}

static void stop(worker *w, ev_timer *timer)
{
    pthread_mutex_lock(&w->lock);
    ev_timer_stop(w->loop, timer);
    pthread_mutex_unlock(&w->lock);
}

static void start_and_cancel(int thread)
{
    worker *w = &workers[thread];
    for (int i = 0; i < CALLS; i++) {
        start(w, &w->one, .5);
        stop(w, &w->one);
    }
}

static void cancel_of_others(int thread)
{
    worker *w = &workers[(thread + 1) % others];
    for (int i = 0; i < TIMERS; i++) {
        stop(w, &w->timers[cancelled_next(i)]);
    }
}

static void start_all(int threads)
{
    for (int t = 0; t < threads; t++) {
        for (int i = 0; i < TIMERS; i++) {
            start(&workers[t], &workers[t].timers[i], (1000 + rand() % 500000) / 1000.);
        }
    }
}

int main(void)
{
    for (int threads = 1; threads <= MOST_THREADS; threads *= 2) {
        others = threads;
        for (int i = 0; i < threads; i++) {
            pthread_mutex_init(&workers[i].lock, NULL);
            workers[i].loop = ev_loop_new(EVFLAG_AUTO);
        }
        measure("start_cancel", threads, start_and_cancel, NULL, CALLS);
        measure("cancel", threads, cancel_of_others, start_all, TIMERS);
        for (int i = 0; i < threads; i++) {
            ev_loop_destroy(workers[i].loop);
            pthread_mutex_destroy(&workers[i].lock);
        }
    }
    return EXIT_SUCCESS;
}
