/*
 * A thread per core: a TCP server whose threads each have a shard of one world. Every thread accepts connections of
 * its own, echoes what they send, and has two timers for each: an idle timeout, which traffic restarts, and a retry.
 * Any thread may close a connection of another one, by cancelling its idle timeout.
 *
 * Who ends the idle timeout of a connection ends the connection, and the library says who that was: of the cancel by the
 * connection's own thread, the cancel by another one, and the expiry exactly one happens. So no lock guards a connection.
 * It is freed once each timer that was started for it has come back: by a cancel, by its message, or from the thread
 * that cancelled it.
 *
 * The program is its own load: clients that talk, that fall silent, that wait to be closed, and that have others closed.
 * It ends once all clients are done, or with a failure after a minute.
 *
 *     cc threads.c -pthread -o threads $(pkg-config --cflags --libs ertime)
 *     ./threads [CLIENTS]
 */
#define _GNU_SOURCE
#include <inttypes.h>
#include <netinet/in.h>
#include <pthread.h>
#include <stdatomic.h>
#include <stdio.h>
#include <stdlib.h>
#include <string.h>
#include <sys/epoll.h>
#include <sys/eventfd.h>
#include <sys/socket.h>
#include <time.h>
#include <unistd.h>

#include "ertime.h"

enum { MOST_THREADS = 16, CLIENT_THREADS = 8, CLIENTS = 240, REQUESTS = 12, LISTED = 64, LONGEST_RUN = 60 };

/* In milliseconds: the idle timeouts of most connections and of those that wait to be closed, and the retry. */
enum { IDLE = 100, LONG_IDLE = 1500, RETRY = 3 };

/* What a client asks for by a byte: an echo, an echo at the second try, to be listed, to have a listed one closed. */
enum { ECHO = 'e', FAIL = 'f', LIST = 'l', CLOSE = 'c' };

typedef struct connection connection;
typedef struct worker worker;

struct connection {
    int fd;
    bool is_ended;
    bool is_listed;
    bool has_idle;
    bool has_retry;
    int idle_for;
    int out; /* timers that were started and have not come back */
    ert_timer idle;
    ert_timer retry;
    connection *next; /* in the list of those that another thread has ended */
};

struct worker {
    ert_shard shard;
    uint32_t process;
    pthread_t thread;
    int poll;
    int listener;
    int bell;
    int connections;
    int accepted, by_client, by_timeout, by_another;
    pthread_mutex_t lock; /* of what follows */
    connection *ended;
    connection *listed[LISTED];
    ert_timer names[LISTED];
};

/* The kind of a timer is the low bit of its message, which is a pointer. */
enum { OF_IDLE = 0, OF_RETRY = 1 };

static ert_hub hub = ERT_INIT;
static pthread_mutex_t ticking = PTHREAD_MUTEX_INITIALIZER;
static worker workers[MOST_THREADS];
static int threads;
static atomic_bool is_stopping;
static in_port_t port;
static atomic_int next_client;
static atomic_int wrong;
static int clients = CLIENTS;

static void fail(const char *what) {
    perror(what);
    exit(EXIT_FAILURE);
}

static void must(const char *call, int32_t status) {
    if (status != ERT_OK) {
        fprintf(stderr, "%s: %s\n", call, ert_status_text(status));
        exit(EXIT_FAILURE);
    }
}

/* Whoever wakes ticks, unless another thread is at it. */
static void tick(void) {
    if (pthread_mutex_trylock(&ticking) == 0) {
        ert_reading reading = ert_read_clocks();
        ert_moved moved;
        must("ert_hub_tick", ert_hub_tick(&hub, &reading, 0, &moved));
        pthread_mutex_unlock(&ticking);
    }
}

static ert_timer start(worker *w, connection *c, int after, int kind) {
    ert_start how = {.when = after, .msg = (uint64_t)(uintptr_t)c | (uint64_t)kind, .dest = w->process};
    ert_timer timer;
    must("ert_shard_start", ert_shard_start(&w->shard, &how, &timer));
    c->out += 1;
    return timer;
}

/* Whether this call ended the timer. If not, another thread did, or its message is on the way. */
static bool cancel(worker *w, const ert_timer *timer) {
    uint64_t left;
    int32_t status = ert_shard_cancel(&w->shard, timer, &left);
    if (status != ERT_NO_TIMER) {
        must("ert_shard_cancel", status);
    }
    return status == ERT_OK;
}

static bool cancel_own(worker *w, connection *c, const ert_timer *timer, bool *is_there) {
    bool is_ended = *is_there && cancel(w, timer);
    *is_there = false;
    c->out -= is_ended ? 1 : 0;
    return is_ended;
}

/* Lists a connection, with the name that its idle timeout has now, or takes it out. */
static void list(worker *w, connection *c, bool is_in) {
    pthread_mutex_lock(&w->lock);
    c->is_listed = false;
    for (int i = 0; i < LISTED; i++) {
        if (w->listed[i] == c || (is_in && !c->is_listed && w->listed[i] == NULL)) {
            w->listed[i] = is_in && !c->is_listed ? c : NULL;
            w->names[i] = c->idle;
            c->is_listed = is_in;
        }
    }
    pthread_mutex_unlock(&w->lock);
}

static void restart_idle(worker *w, connection *c) {
    if (c->has_idle && cancel(w, &c->idle)) {
        c->out -= 1;
        c->idle = start(w, c, c->idle_for, OF_IDLE);
        if (c->is_listed) {
            list(w, c, true);
        }
    }
}

/* Ends a connection, if it has not ended, and frees it once all its timers are back. */
static void end(worker *w, connection *c) {
    if (!c->is_ended) {
        c->is_ended = true;
        if (c->is_listed) {
            list(w, c, false);
        }
        if (cancel_own(w, c, &c->idle, &c->has_idle)) {
            w->by_client += 1;
        }
        cancel_own(w, c, &c->retry, &c->has_retry);
        epoll_ctl(w->poll, EPOLL_CTL_DEL, c->fd, NULL);
        shutdown(c->fd, SHUT_RDWR);
    }
    if (c->out == 0) {
        close(c->fd);
        free(c);
        w->connections -= 1;
    }
}

/* Closes a connection of another thread: who cancels its idle timeout may, and tells that thread. */
static void close_another(worker *w) {
    for (worker *other = workers; other < workers + threads; other++) {
        if (other == w) {
            continue;
        }
        pthread_mutex_lock(&other->lock);
        for (int i = 0; i < LISTED; i++) {
            connection *c = other->listed[i];
            if (c != NULL && cancel(w, &other->names[i])) {
                c->next = other->ended;
                other->ended = c;
                other->listed[i] = NULL;
                eventfd_write(other->bell, 1);
                break;
            }
        }
        pthread_mutex_unlock(&other->lock);
    }
}

static void echo(connection *c, char byte) {
    if (send(c->fd, &byte, 1, MSG_NOSIGNAL) != 1) {
        shutdown(c->fd, SHUT_RDWR); /* its end is seen by the next read */
    }
}

static void handle(worker *w, connection *c) {
    char byte;
    ssize_t got = recv(c->fd, &byte, 1, MSG_DONTWAIT);
    if (got <= 0) {
        end(w, c);
        return;
    }
    if (byte == LIST) {
        c->idle_for = LONG_IDLE;
    }
    restart_idle(w, c);
    if (byte == LIST) {
        list(w, c, true);
    } else if (byte == CLOSE) {
        close_another(w);
    }
    if (byte == FAIL && !c->has_retry) {
        c->retry = start(w, c, RETRY, OF_RETRY);
        c->has_retry = true;
    } else {
        echo(c, byte);
    }
}

static void accept_one(worker *w) {
    int fd = accept4(w->listener, NULL, NULL, SOCK_NONBLOCK);
    if (fd < 0) {
        return;
    }
    connection *c = calloc(1, sizeof *c);
    if (c == NULL) {
        fail("calloc");
    }
    c->fd = fd;
    c->idle_for = IDLE;
    c->idle = start(w, c, c->idle_for, OF_IDLE);
    c->has_idle = true;
    w->accepted += 1;
    w->connections += 1;
    struct epoll_event event = {.events = EPOLLIN, .data.ptr = c};
    if (epoll_ctl(w->poll, EPOLL_CTL_ADD, fd, &event) != 0) {
        fail("epoll_ctl");
    }
}

/* Connections that other threads have ended. */
static void take_ended(worker *w) {
    eventfd_t rings;
    eventfd_read(w->bell, &rings);
    pthread_mutex_lock(&w->lock);
    connection *ended = w->ended;
    w->ended = NULL;
    pthread_mutex_unlock(&w->lock);
    while (ended != NULL) {
        connection *c = ended;
        ended = c->next;
        c->out -= 1;
        c->has_idle = false;
        w->by_another += 1;
        end(w, c);
    }
}

/* Messages of timers that have expired. */
static void take_messages(worker *w) {
    ert_mail mail;
    int32_t status;
    while ((status = ert_shard_take(&w->shard, w->process, &mail)) == ERT_OK) {
        connection *c = (connection *)(uintptr_t)(mail.msg & ~UINT64_C(1));
        c->out -= 1;
        if ((mail.msg & 1) == OF_IDLE) {
            c->has_idle = false;
            w->by_timeout += 1;
            end(w, c);
        } else if (c->is_ended) {
            end(w, c); /* which frees it, if this was its last timer */
        } else {
            c->has_retry = false;
            echo(c, FAIL);
        }
    }
    if (status != ERT_EMPTY) {
        must("ert_shard_take", status);
    }
}

/* How long epoll may sleep after a turn, in milliseconds. */
static int pause_after(worker *w, const ert_turned *turned) {
    uint64_t due;
    int32_t status = ert_shard_next_due(&w->shard, &due);
    if (status == ERT_EMPTY) {
        return -1;
    }
    must("ert_shard_next_due", status);
    return due - turned->to < 1000 ? (int)(due - turned->to) : 1000;
}

static void *serve(void *argument) {
    worker *w = argument;
    int pause = -1;
    while (!atomic_load(&is_stopping) || w->connections > 0) {
        struct epoll_event events[16];
        int count = epoll_wait(w->poll, events, 16, pause);
        tick();
        for (int i = 0; i < count; i++) {
            void *what = events[i].data.ptr;
            if (what == &w->listener) {
                accept_one(w);
            } else if (what != &w->bell) {
                handle(w, what);
            }
        }
        take_ended(w);
        ert_turned turned;
        must("ert_shard_turn", ert_shard_turn(&w->shard, &turned));
        take_messages(w);
        pause = pause_after(w, &turned);
    }
    return NULL;
}

/* A listener on the loopback: the threads share its port, and the kernel spreads the connections. */
static int listen_on_loopback(void) {
    int fd = socket(AF_INET, SOCK_STREAM | SOCK_NONBLOCK, 0);
    int on = 1;
    struct sockaddr_in at = {.sin_family = AF_INET, .sin_port = port, .sin_addr.s_addr = htonl(INADDR_LOOPBACK)};
    socklen_t size = sizeof at;
    if (fd < 0 || setsockopt(fd, SOL_SOCKET, SO_REUSEPORT, &on, sizeof on) != 0
        || bind(fd, (struct sockaddr *)&at, size) != 0 || listen(fd, 1024) != 0
        || getsockname(fd, (struct sockaddr *)&at, &size) != 0) {
        fail("listen");
    }
    port = at.sin_port;
    return fd;
}

static void open_worker(worker *w) {
    uint32_t to;
    must("ert_hub_shard", ert_hub_shard(&hub, &w->shard, 1));
    must("ert_shard_processes", ert_shard_processes(&w->shard, &w->process, &to));
    pthread_mutex_init(&w->lock, NULL);
    w->poll = epoll_create1(0);
    w->bell = eventfd(0, EFD_NONBLOCK);
    w->listener = listen_on_loopback();
    struct epoll_event of_listener = {.events = EPOLLIN, .data.ptr = &w->listener};
    struct epoll_event of_bell = {.events = EPOLLIN, .data.ptr = &w->bell};
    if (w->poll < 0 || w->bell < 0 || epoll_ctl(w->poll, EPOLL_CTL_ADD, w->listener, &of_listener) != 0
        || epoll_ctl(w->poll, EPOLL_CTL_ADD, w->bell, &of_bell) != 0) {
        fail("epoll");
    }
}

static void open_world(void) {
    long processors = sysconf(_SC_NPROCESSORS_ONLN);
    threads = processors < 2 ? 2 : processors > MOST_THREADS ? MOST_THREADS : (int)processors;
    ert_reading first = ert_read_clocks();
    ert_settings settings;
    ert_settings_init(&settings, &first);
    settings.schedulers = (uint32_t)threads;
    settings.processes = (uint32_t)threads;
    settings.callers = (uint32_t)threads + 1;
    settings.slots = 4096;
    must("ert_hub_open", ert_hub_open(&hub, &settings));
    for (int i = 0; i < threads; i++) {
        open_worker(&workers[i]);
    }
}

/* Sends a byte and waits for its echo. False: the server has closed the connection, which it may at any time. */
static bool ask(int fd, char byte) {
    char answer;
    if (send(fd, &byte, 1, MSG_NOSIGNAL) != 1 || recv(fd, &answer, 1, 0) != 1) {
        return false;
    }
    atomic_fetch_add(&wrong, answer != byte);
    return true;
}

/* Waits until the server closes the connection. */
static void wait_for_end(int fd) {
    char none;
    atomic_fetch_add(&wrong, recv(fd, &none, 1, 0) > 0);
}

static void be_client(int number) {
    struct sockaddr_in at = {.sin_family = AF_INET, .sin_port = port, .sin_addr.s_addr = htonl(INADDR_LOOPBACK)};
    int fd = socket(AF_INET, SOCK_STREAM, 0);
    if (fd < 0 || connect(fd, (struct sockaddr *)&at, sizeof at) != 0) {
        fail("connect");
    }
    switch (number % 4) {
    case 0:
        for (int i = 0; i < REQUESTS && ask(fd, i % 4 == 3 ? FAIL : ECHO); i++) {
        }
        break;
    case 1:
        ask(fd, ECHO);
        wait_for_end(fd);
        break;
    case 2:
        ask(fd, LIST);
        wait_for_end(fd);
        break;
    default:
        ask(fd, CLOSE);
    }
    close(fd);
}

static void *load(void *unused) {
    (void)unused;
    int number;
    while ((number = atomic_fetch_add(&next_client, 1)) < clients) {
        be_client(number);
    }
    return NULL;
}

static void run_load(void) {
    pthread_t loads[CLIENT_THREADS];
    for (int i = 0; i < CLIENT_THREADS; i++) {
        if (pthread_create(&loads[i], NULL, load, NULL) != 0) {
            fail("pthread_create");
        }
    }
    for (int i = 0; i < CLIENT_THREADS; i++) {
        pthread_join(loads[i], NULL);
    }
}

static void close_worker(worker *w) {
    must("ert_shard_close", ert_shard_close(&w->shard));
    pthread_mutex_destroy(&w->lock);
    close(w->listener);
    close(w->bell);
    close(w->poll);
}

int main(int count, char **words) {
    clients = count > 1 ? atoi(words[1]) : CLIENTS;
    alarm(LONGEST_RUN);
    open_world();
    for (int i = 0; i < threads; i++) {
        if (pthread_create(&workers[i].thread, NULL, serve, &workers[i]) != 0) {
            fail("pthread_create");
        }
    }
    run_load();
    atomic_store(&is_stopping, true);
    int accepted = 0, by_client = 0, by_timeout = 0, by_another = 0;
    for (int i = 0; i < threads; i++) {
        eventfd_write(workers[i].bell, 1);
        pthread_join(workers[i].thread, NULL);
        accepted += workers[i].accepted;
        by_client += workers[i].by_client;
        by_timeout += workers[i].by_timeout;
        by_another += workers[i].by_another;
        close_worker(&workers[i]);
    }
    must("ert_hub_close", ert_hub_close(&hub));
    fprintf(stderr, "ended by the client %d, by their timeout %d, by another thread %d\n", by_client, by_timeout, by_another);
    printf("connections: %d, each ended once: %s\n", accepted, by_client + by_timeout + by_another == accepted ? "yes" : "no");
    printf("wrong answers: %d\n", atomic_load(&wrong));
    bool is_well = accepted == clients && by_client + by_timeout + by_another == accepted && atomic_load(&wrong) == 0;
    return is_well ? EXIT_SUCCESS : EXIT_FAILURE;
}
