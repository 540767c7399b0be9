/*
 * A TCP server that restarts an idle timeout with each packet, and that other threads can ask to end a connection.
 *
 * A connection has two timers. Its idle timeout is restarted with each packet: one call, by the loop alone, without a lock,
 * and each time it gets another name. Its limit is never restarted, so its name never changes: it is published once, and
 * who ends it ends the connection. Any thread may do so by a seat, and then passes the connection to the loop. Of the
 * cancel by a seat, the cancel by the loop and the expiry exactly one happens.
 *
 * The program is its own load: clients that talk for longer than the idle timeout and fall silent, that hang up, and that
 * have themselves ended. It ends once all clients are done, or with a failure after a minute.
 *
 *     cc idle.c -pthread -o idle $(pkg-config --cflags --libs ertime)
 *     ./idle [CLIENTS]
 */
#define _GNU_SOURCE
#include <errno.h>
#include <netinet/in.h>
#include <pthread.h>
#include <stdatomic.h>
#include <stdio.h>
#include <stdlib.h>
#include <sys/epoll.h>
#include <sys/eventfd.h>
#include <sys/socket.h>
#include <time.h>
#include <unistd.h>

#include "ertime.h"

enum { PROCESS = 0, SCHEDULER = 0, CLIENT_THREADS = 8, CLIENTS = 48, PACKETS = 12, LONGEST_RUN = 60 };

/* In milliseconds: after how much silence a connection ends, how long it may last, and how fast a client talks. */
enum { IDLE_MS = 300, LIMIT_MS = 30000, PACKET_MS = 40 };

/* The kind of a timer is the low bit of its message, which is a pointer. */
enum { OF_IDLE = 0, OF_LIMIT = 1 };

typedef struct connection connection;

struct connection {
    int fd;
    in_port_t port; /* of the client, by which other threads know it */
    bool is_ended;
    int out;            /* timers that were started and have not come back */
    int64_t last_heard; /* monotonic time of the last packet, in nanoseconds */
    ert_timer idle;
    ert_timer limit;
    connection *next;
};

static ert_world world = ERT_INIT;
static int64_t now; /* monotonic time of the last tick, in nanoseconds */
static int polled, listener, bell;
static int connections, accepted, packets, early;
static int by_client, by_silence, by_limit, by_another;

/* What other threads share with the loop. The loop takes the lock when a connection begins and ends, not with a packet. */
static pthread_mutex_t lock = PTHREAD_MUTEX_INITIALIZER;
static ert_seat seat = ERT_INIT;
static connection *listed;
static connection *ended; /* by another thread */

static atomic_bool is_stopping;
static atomic_int next_client, wrong;
static in_port_t port;
static int clients = CLIENTS;

static void must(const char *call, int32_t status) {
    if (status != ERT_OK) {
        fprintf(stderr, "%s: %s\n", call, ert_status_text(status));
        exit(EXIT_FAILURE);
    }
}

static void must_succeed(const char *call, int result) {
    if (result < 0) {
        perror(call);
        exit(EXIT_FAILURE);
    }
}

static ert_start timeout_of(connection *c, int milliseconds, int kind) {
    ert_start start = {.when = milliseconds, .msg = (uint64_t)(uintptr_t)c | (uint64_t)kind, .dest = PROCESS};
    return start;
}

static void start(connection *c, int milliseconds, int kind, ert_timer *timer) {
    ert_start what = timeout_of(c, milliseconds, kind);
    must("ert_world_start", ert_world_start(&world, SCHEDULER, &what, timer));
    c->out += 1;
}

/* Whether this call ended the timer. If not, another thread did, or its message is on the way. */
static bool cancel(connection *c, const ert_timer *timer) {
    uint64_t left;
    int32_t status = ert_world_cancel(&world, timer, &left);
    if (status == ERT_NO_TIMER) {
        return false;
    }
    must("ert_world_cancel", status);
    c->out -= 1;
    return true;
}

/* Takes a connection out of the list, in which other threads look for it. */
static void unlist(connection *c) {
    pthread_mutex_lock(&lock);
    for (connection **at = &listed; *at != NULL; at = &(*at)->next) {
        if (*at == c) {
            *at = c->next;
            break;
        }
    }
    pthread_mutex_unlock(&lock);
}

/* Frees a connection once all its timers have come back: then no message and no other thread has it. */
static void free_if_done(connection *c) {
    if (c->is_ended && c->out == 0) {
        close(c->fd);
        free(c);
        connections -= 1;
    }
}

/* Ends a connection. Whoever ended its limit has ended it: if this call does so, it counts in `by`. */
static void end(connection *c, int *by) {
    if (!c->is_ended) {
        c->is_ended = true;
        unlist(c);
        cancel(c, &c->idle);
        *by += cancel(c, &c->limit) ? 1 : 0;
        epoll_ctl(polled, EPOLL_CTL_DEL, c->fd, NULL);
        shutdown(c->fd, SHUT_RDWR);
    }
    free_if_done(c);
}

static void accept_one(void) {
    struct sockaddr_in from;
    socklen_t size = sizeof from;
    int fd = accept4(listener, (struct sockaddr *)&from, &size, SOCK_NONBLOCK);
    if (fd < 0) {
        return;
    }
    connection *c = calloc(1, sizeof *c);
    must_succeed("calloc", c == NULL ? -1 : 0);
    c->fd = fd;
    c->port = from.sin_port;
    c->last_heard = now;
    start(c, IDLE_MS, OF_IDLE, &c->idle);
    start(c, LIMIT_MS, OF_LIMIT, &c->limit);
    accepted += 1;
    connections += 1;
    struct epoll_event event = {.events = EPOLLIN, .data.ptr = c};
    must_succeed("epoll_ctl", epoll_ctl(polled, EPOLL_CTL_ADD, fd, &event));
    pthread_mutex_lock(&lock);
    c->next = listed;
    listed = c;
    pthread_mutex_unlock(&lock);
}

/* Echoes a packet, and restarts the idle timeout. Input is handled before the turn, so that timer is armed. */
static void take_packet(connection *c) {
    char bytes[64];
    ssize_t got = recv(c->fd, bytes, sizeof bytes, MSG_DONTWAIT);
    if (got < 0 && (errno == EAGAIN || errno == EINTR)) {
        return;
    }
    if (got <= 0) {
        end(c, &by_client);
        return;
    }
    ert_start again = timeout_of(c, IDLE_MS, OF_IDLE);
    must("ert_world_restart", ert_world_restart(&world, &c->idle, &again));
    c->last_heard = now;
    packets += 1;
    if (send(c->fd, bytes, (size_t)got, MSG_NOSIGNAL) != got) {
        end(c, &by_client);
    }
}

/* Connections that other threads have ended: their limits come back with them. */
static void take_ended(void) {
    eventfd_t rings;
    (void)eventfd_read(bell, &rings);
    pthread_mutex_lock(&lock);
    connection *all = ended;
    ended = NULL;
    pthread_mutex_unlock(&lock);
    while (all != NULL) {
        connection *c = all;
        all = c->next;
        c->out -= 1;
        by_another += 1;
        end(c, &by_another);
    }
}

static void take_messages(void) {
    ert_mail mail;
    int32_t status;
    while ((status = ert_world_take(&world, PROCESS, &mail)) == ERT_OK) {
        connection *c = (connection *)(uintptr_t)(mail.msg & ~UINT64_C(1));
        c->out -= 1;
        if ((mail.msg & 1) == OF_LIMIT) {
            by_limit += 1;
            end(c, &by_limit);
        } else {
            early += !c->is_ended && now - c->last_heard < IDLE_MS * INT64_C(1000000) ? 1 : 0;
            end(c, &by_silence);
        }
    }
    if (status != ERT_EMPTY) {
        must("ert_world_take", status);
    }
}

/* The timeout of epoll_wait after a turn: -1, for ever, if no timer is armed. */
static int timeout_after(const ert_turned *turned) {
    uint64_t due;
    int32_t status = ert_world_next_due(&world, SCHEDULER, &due);
    if (status == ERT_EMPTY) {
        return -1;
    }
    must("ert_world_next_due", status);
    return ert_wait_ms(due, turned->to);
}

static void *serve(void *none) {
    int timeout = -1;
    while (!atomic_load(&is_stopping) || connections > 0) {
        struct epoll_event events[16];
        int count = epoll_wait(polled, events, 16, timeout);
        must_succeed("epoll_wait", count < 0 && errno != EINTR ? -1 : 0);
        ert_reading reading = ert_read_clocks();
        ert_moved moved;
        must("ert_world_tick", ert_world_tick(&world, &reading, 0, &moved));
        now = moved.now;
        for (int i = 0; i < count; i++) {
            void *what = events[i].data.ptr;
            if (what == &listener) {
                accept_one();
            } else if (what != &bell) {
                take_packet(what);
            }
        }
        take_ended();
        ert_turned turned;
        must("ert_world_turn", ert_world_turn(&world, SCHEDULER, &turned));
        take_messages();
        timeout = timeout_after(&turned);
    }
    return none;
}

/* Ends the connection of a client, on any thread: if the limit is ended by this call, so is the connection. */
static void end_from_elsewhere(in_port_t of) {
    pthread_mutex_lock(&lock);
    for (connection **at = &listed; *at != NULL; at = &(*at)->next) {
        connection *c = *at;
        if (c->port == of) {
            uint64_t left;
            int32_t status = ert_seat_cancel(&seat, &c->limit, &left);
            if (status == ERT_OK) {
                *at = c->next;
                c->next = ended;
                ended = c;
                (void)eventfd_write(bell, 1);
            } else if (status != ERT_NO_TIMER) {
                must("ert_seat_cancel", status);
            }
            break;
        }
    }
    pthread_mutex_unlock(&lock);
}

static void open_server(void) {
    struct sockaddr_in at = {.sin_family = AF_INET, .sin_addr.s_addr = htonl(INADDR_LOOPBACK)};
    socklen_t size = sizeof at;
    listener = socket(AF_INET, SOCK_STREAM | SOCK_NONBLOCK, 0);
    must_succeed("socket", listener);
    must_succeed("bind", bind(listener, (struct sockaddr *)&at, size));
    must_succeed("listen", listen(listener, 1024));
    must_succeed("getsockname", getsockname(listener, (struct sockaddr *)&at, &size));
    port = at.sin_port;
    polled = epoll_create1(EPOLL_CLOEXEC);
    must_succeed("epoll_create1", polled);
    bell = eventfd(0, EFD_CLOEXEC | EFD_NONBLOCK);
    must_succeed("eventfd", bell);
    struct epoll_event of_listener = {.events = EPOLLIN, .data.ptr = &listener};
    struct epoll_event of_bell = {.events = EPOLLIN, .data.ptr = &bell};
    must_succeed("epoll_ctl", epoll_ctl(polled, EPOLL_CTL_ADD, listener, &of_listener));
    must_succeed("epoll_ctl", epoll_ctl(polled, EPOLL_CTL_ADD, bell, &of_bell));
    ert_reading first = ert_read_clocks();
    ert_settings settings;
    ert_settings_init(&settings, &first);
    settings.callers = 2; /* the loop, and a seat for whoever has the lock */
    must("ert_world_open", ert_world_open(&world, &settings));
    must("ert_seat_open", ert_seat_open(&seat, &world));
}

/* Sends a packet and waits for its echo. False: the server has closed the connection. */
static bool ask(int fd) {
    char byte = 'e', answer;
    if (send(fd, &byte, 1, MSG_NOSIGNAL) != 1 || recv(fd, &answer, 1, 0) != 1) {
        return false;
    }
    atomic_fetch_add(&wrong, answer != byte);
    return true;
}

/* Talks for longer than a connection may be silent. It is wrong if the server ends it though the client was not. */
static void talk(int fd) {
    const struct timespec pause = {0, PACKET_MS * 1000000L};
    int64_t sent = ert_read_clocks().mono;
    for (int i = 0; i < PACKETS; i++) {
        int64_t before = sent;
        sent = ert_read_clocks().mono;
        if (!ask(fd)) {
            atomic_fetch_add(&wrong, sent - before < IDLE_MS / 2 * INT64_C(1000000));
            break;
        }
        nanosleep(&pause, NULL);
    }
}

static void be_client(int number) {
    struct sockaddr_in at = {.sin_family = AF_INET, .sin_port = port, .sin_addr.s_addr = htonl(INADDR_LOOPBACK)};
    struct sockaddr_in own;
    socklen_t size = sizeof own;
    char none;
    int fd = socket(AF_INET, SOCK_STREAM, 0);
    must_succeed("socket", fd);
    must_succeed("connect", connect(fd, (struct sockaddr *)&at, sizeof at));
    must_succeed("getsockname", getsockname(fd, (struct sockaddr *)&own, &size));
    switch (number % 3) {
    case 0: /* until the server ends it by silence */
        talk(fd);
        atomic_fetch_add(&wrong, recv(fd, &none, 1, 0) > 0);
        break;
    case 1:
        ask(fd);
        break;
    default: /* until another thread ends it, this one */
        ask(fd);
        end_from_elsewhere(own.sin_port);
        atomic_fetch_add(&wrong, recv(fd, &none, 1, 0) > 0);
    }
    close(fd);
}

static void *load(void *none) {
    int number;
    while ((number = atomic_fetch_add(&next_client, 1)) < clients) {
        be_client(number);
    }
    return none;
}

int main(int count, char **words) {
    pthread_t server, loads[CLIENT_THREADS];
    clients = count > 1 ? atoi(words[1]) : CLIENTS;
    alarm(LONGEST_RUN);
    open_server();
    must_succeed("pthread_create", -pthread_create(&server, NULL, serve, NULL));
    for (int i = 0; i < CLIENT_THREADS; i++) {
        must_succeed("pthread_create", -pthread_create(&loads[i], NULL, load, NULL));
    }
    for (int i = 0; i < CLIENT_THREADS; i++) {
        pthread_join(loads[i], NULL);
    }
    atomic_store(&is_stopping, true);
    must_succeed("eventfd_write", eventfd_write(bell, 1));
    pthread_join(server, NULL);
    must("ert_seat_close", ert_seat_close(&seat));
    must("ert_world_close", ert_world_close(&world));
    close(listener);
    close(bell);
    close(polled);
    int sum = by_client + by_silence + by_limit + by_another;
    fprintf(stderr, "%d packets; ended by the client %d, by silence %d, by the limit %d, by another thread %d\n", packets,
        by_client, by_silence, by_limit, by_another);
    printf("connections: %d, each ended once: %s\n", accepted, sum == accepted ? "yes" : "no");
    printf("wrong answers: %d, early timeouts: %d\n", atomic_load(&wrong), early);
    return accepted == clients && sum == accepted && atomic_load(&wrong) == 0 && early == 0 ? EXIT_SUCCESS : EXIT_FAILURE;
}
