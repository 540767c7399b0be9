/*
 * The service a second time, as simple as can be: lists that are scanned in full. A fuzzer makes the same calls of
 * the library and of this mirror, and compares each answer. What the answers have to be stands in ertime.h.
 *
 * The clock alone isn't computed again: `mirror_moved` takes what a tick told, and tests it against what the time
 * warp mode and time correction permit.
 */
#ifndef MIRROR_H
#define MIRROR_H

#include "ertime.h"

/* What the mirror holds, and how many messages one call can put at most. */
enum { MOST_TIMERS = 2048, MOST_MAILS = 8192, MOST_ASKED = 2048, MOST_AT_ONCE = MOST_TIMERS + 64 };
enum { WHEELS = 3, PROCESSES = 4, MONITORS = 64 };

typedef enum { ARMED, EXPIRED, GONE } Fate;

typedef struct {
    ert_timer name;
    uint64_t deadline; /* milliseconds after the start time */
    uint64_t msg;
    uint32_t dest;
    bool bare;
    bool by_seat; /* a seat cancelled it, and no advance has passed it: the wheel may hold its row */
    bool unseen;  /* a seat cancelled it: the wheel may not know that its slot is free */
    Fate fate;
} Timer;

typedef struct {
    uint32_t number;
    int64_t offset; /* that it was told last */
} Monitor;

typedef struct {
    bool exited;
    ert_mail mails[MOST_MAILS];
    uint32_t first, last;
    Monitor monitors[MONITORS];
    uint32_t standing;
} Process;

typedef struct {
    ert_request asked[MOST_ASKED];
    uint32_t first, last;
    uint32_t expired[MOST_TIMERS]; /* the timers that wait for a delivery, in order */
    uint32_t waiting;
    uint64_t advanced_to; /* of the last advance */
    bool was_advanced;
} Wheel;

typedef struct {
    ert_settings settings;
    int64_t now, offset, mono;
    uint32_t state; /* of the time offset */
    Timer timers[MOST_TIMERS];
    uint32_t started;
    Process processes[PROCESSES];
    Wheel wheels[WHEELS];
} Mirror;

/* Ends the program, with a line that tells what differs. */
_Noreturn void mirror_fail(const char *what, long long got, long long wanted);
void mirror_same(const char *what, long long got, long long wanted);

void mirror_open(Mirror *mirror, const ert_settings *settings, int64_t offset);

/* Whether each call can still be mirrored. */
bool mirror_has_room(const Mirror *mirror);

/* Takes what a tick told, or a finalization, and tests whether that is permitted. */
void mirror_moved(Mirror *mirror, const ert_reading *reading, const ert_moved *moved, bool finalizes);

/* Whole milliseconds from the start time to now. */
uint64_t mirror_down(const Mirror *mirror);

/* The status of a start; where it is ERT_OK, `mirror_started` takes the timer's name. */
int32_t mirror_start(const Mirror *mirror, uint32_t sched, const ert_start *start);
void mirror_started(Mirror *mirror, uint32_t sched, const ert_start *start, const ert_timer *name);

uint32_t mirror_room(const Mirror *mirror, uint32_t sched);
/* Whether a start may be refused though there is room: it looks at fewer slots than there are, and a seat has cancelled
 * the last timer of each free one. */
bool mirror_may_miss(const Mirror *mirror, uint32_t sched);
int32_t mirror_read(const Mirror *mirror, const ert_timer *name, uint64_t *left);
int32_t mirror_cancel(Mirror *mirror, const ert_timer *name, bool by_seat, uint64_t *left);
/* The status of a restart; where it is ERT_OK, the timer is cancelled and `mirror_started` takes the new name. */
int32_t mirror_restart(Mirror *mirror, const ert_timer *name, const ert_start *start);
uint32_t mirror_exit(Mirror *mirror, uint32_t process);
uint64_t mirror_cancel_all(Mirror *mirror, uint32_t process);

void mirror_ask(Mirror *mirror, const ert_request *request);
uint32_t mirror_serve(Mirror *mirror, uint32_t sched);
ert_advanced mirror_advance(Mirror *mirror, uint32_t sched);
ert_delivered mirror_deliver(Mirror *mirror, uint32_t sched);
ert_turned mirror_turn(Mirror *mirror, uint32_t sched);

int32_t mirror_take(Mirror *mirror, uint32_t process, ert_mail *mail);
/* Whether a process has messages, also one that has exited. */
bool mirror_can_take(const Mirror *mirror, uint32_t process);
int32_t mirror_demonitor(Mirror *mirror, uint32_t process, uint32_t number);
uint32_t mirror_notify(Mirror *mirror, uint32_t process);

/* Tests what `ert_world_next_due` told. */
void mirror_next_due(const Mirror *mirror, uint32_t sched, int32_t status, uint64_t due);
/* How many timers the wheel holds once those that seats cancelled are dropped. */
uint64_t mirror_drop_settled(Mirror *mirror, uint32_t sched);

#endif
