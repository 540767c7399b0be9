/*
 * ertime: the clock and timer service of the Erlang runtime, as a library.
 *
 * A program is built with `cc program.c $(pkg-config --cflags --libs ertime)`. The library starts no thread,
 * takes no lock, calls nothing back, reads no clock and never waits. The program reads the clocks of the
 * operating system and passes what it read, asks what is due, and takes the messages of timers that have
 * expired.
 *
 * The words. A world (`ert_world`) is one clock with its timers. A scheduler is a timer wheel and the turn that
 * expires its timers; a process is a mailbox, from which the program takes their messages. One scheduler and one
 * process are enough for a server: the message of a timer can be a pointer to its connection.
 *
 * Conventions. Each call returns a status: ERT_OK, or a negative number that says why the call did nothing.
 * After a refusal nothing has changed, neither the world nor what the out parameters point to, unless the text
 * of a call says otherwise. Processes, schedulers and slots are numbers from 0. A flag of type uint32_t is on if it is
 * not 0.
 *
 * Units. What comes from a clock is in nanoseconds, of type int64_t: `mono`, `sys`, `start`, `now`, `shift`, `offset`,
 * `time`. What timers are started with, wait for and are due at is in milliseconds: `when`, `period`, `left`, and `to`,
 * `due` and `ready`. The comment of each says its unit again; of the names, which are short and used throughout, those
 * of the functions that convert alone have one at their end (ert_wait_ms, ert_wait_ns). `to`, `due` and `ready` count
 * from the start time, and an absolute `when` is a monotonic time: both count alike if `start` is 0, as
 * ert_settings_init sets it; otherwise a time of the first kind becomes one of the second if `start` / 1,000,000 is added.
 *
 * Ownership. The caller owns the memory of a handle, which begins as ERT_INIT (all zero) and must not be copied or
 * moved while it is open. What lies behind it belongs to the library from ert_world_open to ert_world_close, and
 * from ert_seat_open to ert_seat_close, and comes from malloc. No other call keeps a pointer that it was passed.
 *
 * Threads. A handle must not be used by two threads at the same time. A world has one handle for every call,
 * ert_world; if several threads make these calls, the program must guard it with a mutex. Some calls need no lock
 * and are made through a seat: with an ert_seat of its own a thread reads the time, cancels and reads timers, and
 * asks whether a process is alive, while others call through the world's handle and through other seats. It
 * never blocks. A world gives out settings.callers - 1 seats. Any handle may go from one thread to another, as a
 * mutex or pthread_create passes it there. Worlds that were opened apart share nothing. A program that is built with
 * -fsanitize=thread is told of two threads that use one handle, and the sanitizer knows how cancels, turns and ticks order
 * threads (ertime_tsan.h).
 *
 * A thread per core. A world can be divided among threads instead, so that each starts its own timers and makes its
 * own turns, beside all others and without a lock: see "Hub and shards" at the end of this file.
 *
 * Where a call may be made, and what happens around it:
 *
 *   another thread    ert_world, ert_hub: one thread at a time. ert_seat, ert_shard: its own thread, beside all others.
 *   signal handler    no call. Set a flag or write to an eventfd, and call from the loop. A handler that interrupts
 *                     a call and returns does no harm; one that leaves it by longjmp breaks the handle.
 *   fork              the child has a copy of the world, which goes on apart from the parent's. If the process had
 *                     several threads, the child must make no call, and not close it. exec and _exit are safe.
 *   exec              the world is gone, as all memory. It has no descriptor, lock, thread or file.
 *   suspend, stop     nothing is lost: the first tick afterwards moves time on, and each timer that is due expires
 *                     once, in order of deadline. Whether the sleep counts is up to the clock passed as `mono`.
 *   cancelled thread  no call is a cancellation point. A thread with asynchronous cancellation must make none.
 *   C++ exceptions    no call throws, and none calls back.
 *
 * Undefined, as in C: a null pointer, a pointer to less than the type says, parameters that overlap, a handle
 * that did not begin as ERT_INIT or was written to, copied or moved while it was open, and two calls at the same
 * time on one handle. Everything else is answered: a closed handle, numbers out of range, bad readings and unknown
 * kinds.
 *
 * What is proved. Each call has a contract, against which its code was proved (docs/PROVED.md in the sources). Two things
 * that this header says stand in no contract. Order between threads: if one call returned before another began, on
 * whatever threads and through whatever handles of a world, the later one knows what the earlier one did. This is an
 * argument from the order of the atomic steps (docs/THEOREM.md), and tested on logs of threads. Memory in turns: that
 * ert_world_serve, ert_world_advance, ert_world_deliver, the turns, and those of a shard, never return ERT_NO_MEMORY if
 * there is room, is tested by turns with every allocation refused. Proved is that they return it without a loss, and of a
 * mailbox with room that it takes a message without memory.
 *
 * Versions. Within one major version functions, constants and fields keep their meaning and their place, and no
 * struct changes its size, except that ert_settings may grow at its end. Functions, statuses and kinds of messages
 * may be added: treat a negative status that you don't know as a refusal, and ignore a message of a kind that you
 * don't know. A program that was built against an older header runs with a newer library.
 */
#ifndef ERTIME_H
#define ERTIME_H

#include <stdbool.h>
#include <stddef.h>
#include <stdint.h>

#ifdef __cplusplus
extern "C" {
#endif

/* The version of this header. The shared library of one major version has one soname. */
#define ERTIME_VERSION_MAJOR 1
#define ERTIME_VERSION_MINOR 0
#define ERTIME_VERSION_PATCH 0

/*
 * The same as one number, which can be compared in #if: 1,000,000 times the major, 1,000 times the minor, and the patch
 * number. And as a text, as "1.0.0".
 */
#define ERTIME_VERSION (ERTIME_VERSION_MAJOR * 1000000 + ERTIME_VERSION_MINOR * 1000 + ERTIME_VERSION_PATCH)
#define ERTIME_TEXT_OF_(it) #it
#define ERTIME_DOTTED_(major, minor, patch) ERTIME_TEXT_OF_(major) "." ERTIME_TEXT_OF_(minor) "." ERTIME_TEXT_OF_(patch)
#define ERTIME_VERSION_TEXT ERTIME_DOTTED_(ERTIME_VERSION_MAJOR, ERTIME_VERSION_MINOR, ERTIME_VERSION_PATCH)

/*
 * The version of the library that the program runs with, as ERTIME_VERSION is that of the header which it was built
 * with. It is the same number or a greater one of the same major version. No handle, no memory.
 */
uint32_t ert_version(void);

/* The statuses. */
#define ERT_OK 0
#define ERT_CLOSED (-1)      /* the handle is closed */
#define ERT_OPEN (-2)        /* the handle is open already */
#define ERT_NO_MEMORY (-3)   /* out of memory */
#define ERT_BAD_SIZE (-4)    /* `size` is none that this library knows: not set, or by a different header */
#define ERT_BAD_MODE (-5)    /* there is no such time warp mode */
#define ERT_BAD_START (-6)   /* the start time is not a multiple of 1,000,000, or outside -2^58 to 2^58 */
#define ERT_BAD_READING (-7) /* `mono` is negative, or 2^62 (146 years) or more; or `sys` is not between -2^61 and 2^61,
                                that is 1896-12-06 to 2043-01-25 */
#define ERT_BAD_COUNT (-8)   /* schedulers, processes, slots, callers or looks are outside their limits */
#define ERT_OFFSET_WIDE (-9) /* the time offset would be -2^62 or less, or 2^62 or more */
#define ERT_RANGE (-10)      /* there is no such process or scheduler */
#define ERT_BAD_TIME (-11)   /* no timer can be due then */
#define ERT_FULL (-12)       /* no slot that the start looked at can take a timer, or the process can have no further
                                monitor */
#define ERT_NO_TIMER (-13)   /* the timer is not armed */
#define ERT_EMPTY (-14)      /* there is no message, or no timer */
#define ERT_EXITED (-15)     /* the process has exited */
#define ERT_BAD_KIND (-16)   /* there is no such kind of request */
#define ERT_NO_MONITOR (-17) /* the process has no such monitor */
#define ERT_NO_SEAT (-18)    /* every caller but 0 was given a seat */
#define ERT_NO_SHARD (-19)   /* no scheduler is left that a shard could have */

/*
 * The text of a status, for a log: its name and what it means. It is a constant, which nobody frees, and never NULL; a
 * status that this header does not have is an unknown one. It is in the header, and calls nothing.
 */
static inline const char *ert_status_text(int32_t status) {
    switch (status) {
    case ERT_OK: return "ERT_OK: done";
    case ERT_CLOSED: return "ERT_CLOSED: the handle is closed";
    case ERT_OPEN: return "ERT_OPEN: the handle is open already";
    case ERT_NO_MEMORY: return "ERT_NO_MEMORY: out of memory";
    case ERT_BAD_SIZE: return "ERT_BAD_SIZE: the size of the settings is wrong";
    case ERT_BAD_MODE: return "ERT_BAD_MODE: no such time warp mode";
    case ERT_BAD_START: return "ERT_BAD_START: the start time is out of range";
    case ERT_BAD_READING: return "ERT_BAD_READING: a reading of the clocks is out of range";
    case ERT_BAD_COUNT: return "ERT_BAD_COUNT: a count of the settings is out of range";
    case ERT_OFFSET_WIDE: return "ERT_OFFSET_WIDE: the time offset would be out of range";
    case ERT_RANGE: return "ERT_RANGE: no such process or scheduler";
    case ERT_BAD_TIME: return "ERT_BAD_TIME: no timer can be due then";
    case ERT_FULL: return "ERT_FULL: no available slot was found, or no further monitor";
    case ERT_NO_TIMER: return "ERT_NO_TIMER: the timer is not armed";
    case ERT_EMPTY: return "ERT_EMPTY: there is no message, or no timer";
    case ERT_EXITED: return "ERT_EXITED: the process has exited";
    case ERT_BAD_KIND: return "ERT_BAD_KIND: no such kind of request";
    case ERT_NO_MONITOR: return "ERT_NO_MONITOR: no such monitor";
    case ERT_NO_SEAT: return "ERT_NO_SEAT: every seat was given out";
    case ERT_NO_SHARD: return "ERT_NO_SHARD: no scheduler is left for a shard";
    default: return "an unknown status";
    }
}

/* A handle of a world. It begins as ERT_INIT, which is all zero. Its fields are private. */
typedef struct {
    void *at_;
    bool live_;
} ert_world;
#define ERT_INIT {0, false}

/* A handle of a seat. It begins as ERT_INIT, which is all zero. Its fields are private. */
typedef struct {
    void *at_;
    bool live_;
} ert_seat;

/*
 * A reading of the clocks of the operating system, in nanoseconds: CLOCK_MONOTONIC and CLOCK_REALTIME. If timers are
 * to count the time in which the machine is suspended, pass CLOCK_BOOTTIME as `mono`, always.
 */
typedef struct {
    int64_t mono; /* nanoseconds */
    int64_t sys;  /* nanoseconds since 1970 */
} ert_reading;

/*
 * Reads CLOCK_MONOTONIC and CLOCK_REALTIME. It is there if the program has included <time.h> of POSIX before this header.
 * It is in the header, and calls clock_gettime alone.
 */
#ifdef CLOCK_MONOTONIC
static inline ert_reading ert_read_clocks(void) {
    struct timespec mono;
    struct timespec sys;
    ert_reading reading;
    (void)clock_gettime(CLOCK_MONOTONIC, &mono);
    (void)clock_gettime(CLOCK_REALTIME, &sys);
    reading.mono = (int64_t)mono.tv_sec * 1000000000 + mono.tv_nsec;
    reading.sys = (int64_t)sys.tv_sec * 1000000000 + sys.tv_nsec;
    return reading;
}
#endif

/*
 * The time warp modes (ERTS User's Guide, "Time Warp Modes"): when the time offset, and so system time, may leap.
 * ERT_NO_WARP: never. ERT_SINGLE_WARP: once, at ert_world_finalize. ERT_MULTI_WARP: at any check.
 */
#define ERT_NO_WARP 0
#define ERT_SINGLE_WARP 1
#define ERT_MULTI_WARP 2

/*
 * What a world is opened with. ert_settings_init fills it with the recommended settings.
 *
 * For plain timers on the monotonic clock set `mode` to ERT_MULTI_WARP and `correction` to 1: then monotonic time and
 * timers go as CLOCK_MONOTONIC does, whatever happens to the system clock within the limits of ERT_BAD_READING.
 *
 * A zeroed struct has correction OFF. Then monotonic time follows the system clock: if that is set back by an hour,
 * every timer stands still for an hour; if it is set forward, the timers in between are due at once. With
 * ERT_NO_WARP and correction, monotonic time runs up to 1 % fast or slow until it has met the system clock, for 100
 * hours after a leap of an hour, and timers are as much too short or too long.
 */
typedef struct {
    uint32_t size;       /* sizeof(ert_settings) */
    uint32_t mode;       /* one of the time warp modes */
    uint32_t correction; /* whether time correction is on; set it to 1, as said above */
    uint32_t schedulers; /* 1 to 1,024; each has a timer wheel; 1 is enough for up to a million timers */
    uint32_t processes;  /* 1 to 524,288; each has a mailbox; 1 is enough for most programs; the product of schedulers
                            and processes is at most 67,108,864 */
    uint32_t slots;      /* timer slots of each wheel, 1 to 16,777,216; at most 67,108,864 in all */
    uint32_t callers;    /* 1 to 1,025: caller 0 makes the calls through ert_world, and each other one can get a seat */
    uint32_t looks;      /* 1 or more: how many slots a start searches when no slot is known to be free; 64 is enough for
                            most programs. The search goes on where the last one stopped, takes some 2 ns a slot, and
                            finds slots that another thread's cancel has freed, or whose wait has ended; without one
                            the start is refused (ERT_FULL). Slots that the wheel's own thread has freed are always
                            known */
    int64_t start;       /* monotonic time at the opening, in nanoseconds: a multiple of 1,000,000 from -2^58 to 2^58 */
    ert_reading first;   /* the reading that the clock opens with */
} ert_settings;

/*
 * Fills settings with the recommended ones: plain timers on the monotonic clock, for one event loop.
 *
 * Multi time warp mode with time correction, one scheduler, one process, 1,024 slots, no seats, 64 looks, monotonic
 * time 0 at the opening. `first` is a reading of the clocks. Every field is set, so that none is left to chance: change
 * those that you want otherwise, and then call ert_world_open. It is in the header, and calls nothing.
 */
static inline void ert_settings_init(ert_settings *settings, const ert_reading *first) {
    settings->size = (uint32_t)sizeof *settings;
    settings->mode = ERT_MULTI_WARP;
    settings->correction = 1;
    settings->schedulers = 1;
    settings->processes = 1;
    settings->slots = 1024;
    settings->callers = 1;
    settings->looks = 64;
    settings->start = 0;
    settings->first = *first;
}

/* What a tick or a finalization did. */
typedef struct {
    int64_t now;      /* monotonic time after it, in nanoseconds */
    int64_t shift;    /* the new time offset if it was set, otherwise 0, in nanoseconds */
    uint32_t shifted; /* 1 if the time offset was set, otherwise 0 */
} ert_moved;

/* The states of the time offset: it changes at a finalization alone; never; at any check. */
#define ERT_PRELIMINARY 0
#define ERT_FINAL 1
#define ERT_VOLATILE 2

typedef struct {
    int64_t offset; /* nanoseconds */
    uint32_t state; /* one of the states */
} ert_offset;

/* The name of a timer. It is never used twice. An unknown name is treated as that of a timer that is not armed. */
typedef struct {
    uint32_t wheel; /* the scheduler on whose wheel it was started */
    uint32_t slot;
    uint64_t generation; /* which use of the slot it is; neither its value nor its order means anything */
} ert_timer;

/*
 * Whether two names are of one timer. A name that is all zero is that of no timer. It is in the header, and calls nothing.
 */
static inline bool ert_timer_equal(const ert_timer *one, const ert_timer *other) {
    return one->wheel == other->wheel && one->slot == other->slot && one->generation == other->generation;
}

/* What a timer is started with. */
typedef struct {
    int64_t when;      /* milliseconds after the last tick, or a monotonic time in milliseconds */
    uint64_t msg;      /* a number, or the bits of a pointer, which the library returns and does not follow */
    uint32_t absolute; /* whether `when` is a time */
    uint32_t bare;     /* whether the message comes without the timer's name (`send_after`) */
    uint32_t dest;     /* the process that gets the message */
} ert_start;

/*
 * A timer that repeats at a fixed rate. Its deadlines are `start.when`, one period after that, two periods, .. whatever
 * the time is when each of its timers is started: so it does not drift. A program starts the first timer with `start`,
 * and when it takes the message of one it starts the next with ert_repeat_next or ert_repeat_skip, on a world or on
 * a shard. With deadlines at 10, 15, 20, .. and turns at 10 and 27:
 *
 *     deadlines                10    15    20    25    30
 *     ert_repeat_next          10    27    27    27          each is met, in a turn of its own; then 30 is armed
 *     ert_repeat_skip          10    27                      20 and 25 are left out; then 30 is armed
 *
 * Both are in the header, and call nothing. A deadline that no timer can have is refused by the start (ERT_BAD_TIME), and
 * so is each after the first if the period is below 1. A start that was refused can be made again with `start`.
 */
typedef struct {
    ert_start start; /* what the timer is started with; `absolute` is 1 */
    int64_t period;  /* milliseconds, 1 or more */
} ert_repeat;

/*
 * Goes on to the next deadline of a repeating timer, whether it has passed or not, and returns what its next timer is
 * started with.
 */
static inline const ert_start *ert_repeat_next(ert_repeat *repeat) {
    int64_t due = repeat->start.when;
    int is_none = repeat->period < 1 || due > INT64_MAX - repeat->period;
    repeat->start.when = is_none ? INT64_MAX : due + repeat->period;
    return &repeat->start;
}

/*
 * Goes on to the first deadline of a repeating timer after `now`, a monotonic time in milliseconds (`to` of a turn, if
 * the start time is 0), but by one period at least. Writes how many deadlines it left out to `left_out`, and returns
 * what its next timer is started with.
 */
static inline const ert_start *ert_repeat_skip(ert_repeat *repeat, int64_t now, uint64_t *left_out) {
    int64_t due = repeat->start.when;
    *left_out = 0;
    if (now > due && repeat->period >= 1) {
        uint64_t late = (uint64_t)now - (uint64_t)due;
        *left_out = late / (uint64_t)repeat->period;
        repeat->start.when = (int64_t)((uint64_t)now - late % (uint64_t)repeat->period);
    }
    return ert_repeat_next(repeat);
}

/* What a scheduler did. */
typedef struct {
    uint64_t to;      /* milliseconds since the start time */
    uint32_t expired; /* how many timers expired */
} ert_advanced;

typedef struct {
    uint32_t put;     /* how many messages were put into mailboxes */
    uint32_t dropped; /* how many were discarded, since their process had exited */
} ert_delivered;

typedef struct {
    uint64_t to;     /* milliseconds since the start time */
    uint32_t served; /* how many requests were answered, 0 to 64 */
    uint32_t expired;
    uint32_t put;
    uint32_t dropped;
} ert_turned;

/* What a turn with a bound did. */
typedef struct {
    uint64_t to; /* milliseconds since the start time */
    uint32_t served;
    uint32_t expired;
    uint32_t put;
    uint32_t dropped;
    uint32_t more; /* 1 if timers are left that are due or have expired, or have to move first, otherwise 0 */
} ert_turned_some;

/*
 * How long a loop may sleep, in milliseconds, as the timeout of epoll_wait or poll: from `to` of the last turn until `due`
 * of ert_world_next_due. It is 0 if `due` has passed, and at most INT32_MAX (24 days), after which the loop asks again. If
 * ert_world_next_due returned ERT_EMPTY, pass -1 to epoll_wait instead. It is in the header, and calls nothing.
 *
 * A turn's `to` is a whole millisecond that has passed, so the sleep ends after `due`, by less than a millisecond.
 */
static inline int32_t ert_wait_ms(uint64_t due, uint64_t to) {
    if (due <= to) {
        return 0;
    }
    return due - to < INT32_MAX ? (int32_t)(due - to) : INT32_MAX;
}

/*
 * The same exactly, in nanoseconds, for the timespec of epoll_pwait2 or ppoll: from `now`, the monotonic time of the last
 * tick (`now` of ert_moved), until `due`, if the world was opened with the monotonic time `start`. It is 0 if `due` has
 * passed, and at most 2^62 (146 years). The time that the program took since that tick is for the program to subtract.
 */
static inline int64_t ert_wait_ns(uint64_t due, int64_t start, int64_t now) {
    const uint64_t most = (uint64_t)1 << 62;
    uint64_t passed = (uint64_t)now - (uint64_t)start;
    uint64_t at = due > most / 1000000u ? most : due * 1000000u;
    return at > passed ? (int64_t)(at - passed) : 0;
}

/*
 * The same as a timespec, to which epoll_pwait2, ppoll and io_uring can be passed a pointer: the parameters are those of
 * ert_wait_ns. It is there if the program has included <time.h> of POSIX before this header. It calls nothing.
 */
#ifdef CLOCK_MONOTONIC
static inline struct timespec ert_wait_timespec(uint64_t due, int64_t start, int64_t now) {
    int64_t wait = ert_wait_ns(due, start, now);
    struct timespec it;
    it.tv_sec = (time_t)(wait / 1000000000);
    it.tv_nsec = (long)(wait % 1000000000);
    return it;
}
#endif

/* The kinds of messages. */
#define ERT_TIMEOUT 1     /* of a timer: timer, msg */
#define ERT_BARE 2        /* of a bare timer: msg */
#define ERT_CANCEL_DONE 3 /* the answer to a request to cancel: timer, has_left, left */
#define ERT_READ_DONE 4   /* the answer to a request to read: timer, has_left, left */
#define ERT_CHANGE 5      /* the time offset changed: monitor, offset */

/* A message. Fields that don't apply to its kind are 0. */
typedef struct {
    uint32_t tag; /* one of the kinds */
    ert_timer timer;
    uint32_t has_left; /* 1 if the timer was armed */
    uint32_t monitor;
    uint64_t msg;
    uint64_t left;  /* milliseconds that were left of the timer */
    int64_t offset; /* nanoseconds */
} ert_mail;

/*
 * The text of a kind of message, the `tag` of ert_mail, for a log: its name and what it means. It is a constant, which
 * nobody frees, and never NULL; a kind that this header does not have is an unknown one. It is in the header, and calls
 * nothing.
 */
static inline const char *ert_event_text(uint32_t tag) {
    switch (tag) {
    case ERT_TIMEOUT: return "ERT_TIMEOUT: a timer expired";
    case ERT_BARE: return "ERT_BARE: a bare timer expired";
    case ERT_CANCEL_DONE: return "ERT_CANCEL_DONE: a request to cancel was answered";
    case ERT_READ_DONE: return "ERT_READ_DONE: a request to read was answered";
    case ERT_CHANGE: return "ERT_CHANGE: the time offset changed";
    default: return "an unknown kind of message";
    }
}

/* An asynchronous cancel or read of a timer. */
#define ERT_CANCEL 0
#define ERT_READ 1
typedef struct {
    uint32_t kind; /* ERT_CANCEL or ERT_READ */
    ert_timer timer;
    uint32_t reply_to; /* the process that gets the answer */
    uint32_t info;     /* whether an answer is sent at all */
} ert_request;

/*
 * Opens a world behind a closed handle.
 *
 * The world has no timer and no message, and its monotonic time is `start`. All memory that timers need
 * is allocated here: some 35 KB for each scheduler, 80 bytes for each slot, and some 100 for each process
 * (docs/EMBEDDING.md has a table). Later only messages, requests, monitors and expired timers that wait take more,
 * and seats.
 *
 * ERT_OPEN: the handle is open, and stays as it was. ERT_BAD_SIZE, ERT_BAD_MODE, ERT_BAD_START,
 * ERT_BAD_READING, ERT_BAD_COUNT: the first of these, in this order, that holds of the settings.
 * ERT_NO_MEMORY: out of memory; the handle stays closed, and what was allocated is freed.
 *
 * The caller owns the handle and the settings; the settings are not needed after the call.
 */
int32_t ert_world_open(ert_world *world, const ert_settings *settings);

/*
 * Closes an open handle, and frees its memory.
 *
 * Armed timers and messages that were not taken are discarded. The library frees nothing that a message's `msg`
 * points to: take all messages first if that matters. Seats stay open: their clock stands still, and they can
 * still cancel and read timers. What they share is freed with the last of them.
 *
 * The handle is as ERT_INIT makes it, and can be opened again. ERT_CLOSED: the handle was closed; a second
 * close is safe. A handle that is forgotten while it is open leaks its memory.
 */
int32_t ert_world_close(ert_world *world);

/*
 * Passes a reading of the clocks of the operating system to the world: monotonic time moves on by it.
 *
 * Call it once for each pass of an event loop, before the turns of the schedulers, and before a start that must
 * count from now. A `mono` below that of an earlier reading counts as that one. A tick makes a check of the two
 * clocks if the last check or finalization is 60 seconds old, or if `force` is not 0. A check in multi time warp mode
 * sets the time offset if it is off by more than 1 ms. If the offset is final, a check with time correction sets the
 * rate of the clock, by up to 1 percent, until the next check (ERTS User's Guide, "Time Correction").
 *
 * Writes what it did to `moved`. ERT_BAD_READING and ERT_OFFSET_WIDE: refused, and the clock is as it was.
 * ERT_CLOSED. Constant work; no memory.
 */
int32_t ert_world_tick(ert_world *world, const ert_reading *reading, uint32_t force, ert_moved *moved);

/*
 * Finalizes the time offset (`erlang:system_flag(time_offset, finalize)`).
 *
 * In single time warp mode the offset is set once, from preliminary to final, so that system time is that of
 * the reading. If the offset is not preliminary the call succeeds and moves nothing; then `shifted` is 0.
 *
 * Writes the state before it to `before` (ERT_PRELIMINARY, ERT_FINAL or ERT_VOLATILE), and what it did to
 * `moved`. ERT_BAD_READING and ERT_OFFSET_WIDE: refused, and the clock is as it was. ERT_CLOSED.
 * Constant work; no memory.
 */
int32_t ert_world_finalize(ert_world *world, const ert_reading *reading, uint32_t *before, ert_moved *moved);

/*
 * Monotonic time, in nanoseconds (`erlang:monotonic_time`).
 *
 * It is that of the last tick, and does not move between ticks. It never goes back. It begins as the start
 * time of the settings, and stays less than 8,796,093,022,207,000,000 above it, some 278 years.
 *
 * ERT_CLOSED. Constant work, a few nanoseconds; no memory.
 */
int32_t ert_world_monotonic_time(ert_world *world, int64_t *time);

/*
 * System time, in nanoseconds since 1970 (`erlang:system_time`): monotonic time plus the time offset.
 *
 * If the offset is volatile, or preliminary until it is finalized, system time may leap between two ticks. If the
 * offset is final, it moves as monotonic time does.
 *
 * ERT_CLOSED. Constant work; no memory.
 */
int32_t ert_world_system_time(ert_world *world, int64_t *time);

/*
 * The time offset, in nanoseconds, with its state (`erlang:time_offset`).
 *
 * System time is monotonic time plus the offset. The state says whether the offset can change: ERT_PRELIMINARY,
 * by a finalization alone; ERT_FINAL, never; ERT_VOLATILE, at any tick.
 *
 * ERT_CLOSED. Constant work; no memory.
 */
int32_t ert_world_time_offset(ert_world *world, ert_offset *offset);

/*
 * Starts a timer on the wheel of a scheduler (`erlang:start_timer`, `erlang:send_after`).
 *
 * It is due `when` milliseconds after the current monotonic time, rounded up to a millisecond; or, if `absolute`
 * is not 0, at the monotonic time `when`, in milliseconds. The current monotonic time is that of the last tick: a
 * timer that is started 50 ms after it expires 50 ms early by the clock on the wall. Tick first if that matters (as
 * with `uv_update_time` of libuv). When an advance or a turn of the scheduler finds it due it expires, and its
 * message goes to the mailbox of `dest`: ERT_TIMEOUT, or ERT_BARE if `bare` is not 0. A timer for a process that
 * has exited is started and cancelled at once.
 *
 * Writes the timer's name to `timer`. ERT_RANGE: there is no scheduler `scheduler` or no process `dest`. ERT_BAD_TIME:
 * `when` is negative, or the deadline outside 0 to 8,796,093,022,207 milliseconds after the start time. ERT_FULL: no
 * available slot was found. A slot that was used 262,143 times is unavailable until the deadlines of these timers have
 * passed; ert_world_ready returns that time. (Or the wheel has had 2^53 timers.) If the wheel has more slots than
 * settings.looks, only that many were searched: another slot may be available, but only one whose timer a seat has
 * cancelled, or for which the deadlines that it waited for have just passed. The next starts look at the others.
 * ERT_CLOSED. No memory. Constant work if a slot is known to be free; otherwise `looks` slots of the wheel are looked
 * at, or all if there are fewer, at some 2 ns each.
 */
int32_t ert_world_start(ert_world *world, uint32_t scheduler, const ert_start *start, ert_timer *timer);

/*
 * Reports how many slots the wheel of a scheduler has available.
 *
 * Writes how many slots can take a timer now to `room`, and to `ready` the earliest time at which one that waits
 * for its deadlines can take a timer again, in milliseconds since the start time, as `to` of a turn: 0 if none
 * waits. If `room` is not 0, the next start on the wheel is not refused by ERT_FULL. Otherwise one that was refused so
 * can be made at `ready`, or once a timer of the wheel has been cancelled or delivered.
 *
 * ERT_RANGE: there is no such scheduler. ERT_CLOSED. It looks at each slot of the wheel once; no memory.
 */
int32_t ert_world_ready(ert_world *world, uint32_t scheduler, uint32_t *room, uint64_t *ready);

/*
 * Cancels a timer (`erlang:cancel_timer`).
 *
 * After it the timer's message never comes. Writes the milliseconds that were left to `left`: 0 if it was
 * due and had not expired.
 *
 * ERT_NO_TIMER: the timer is not armed: it has expired, was cancelled, or never existed; its message may
 * be in a mailbox, or be on its way there. ERT_CLOSED. Constant work; no memory.
 */
int32_t ert_world_cancel(ert_world *world, const ert_timer *timer, uint64_t *left);

/*
 * Restarts a timer that is armed: it gets a new deadline and a new name (as `uv_timer_again` of libuv).
 *
 * The timer is cancelled, and one is started on its wheel with all that `start` says, mostly in its slot. So an idle
 * timeout is moved on by one call. Writes the new name over the old one in `timer`.
 *
 * After each error the timer is as it was, armed or not, and so is `timer`. ERT_RANGE: there is no process `dest`.
 * ERT_BAD_TIME: as of ert_world_start. ERT_NO_TIMER: the timer is not armed: it has expired, was cancelled, or never
 * existed. ERT_FULL: its slot has been used 262,143 times, and no other one is available, as of ert_world_start. (Or the
 * wheel has had 2^53 timers.) ERT_CLOSED. About the work of ert_world_cancel and ert_world_start together; no memory.
 */
int32_t ert_world_restart(ert_world *world, ert_timer *timer, const ert_start *start);

/*
 * Reads the milliseconds that are left of a timer (`erlang:read_timer`), and changes nothing.
 *
 * Writes them to `left`: 0 if it is due and has not expired.
 *
 * ERT_NO_TIMER: the timer is not armed, and `left` is as it was. ERT_CLOSED. Constant work; no memory.
 */
int32_t ert_world_read(ert_world *world, const ert_timer *timer, uint64_t *left);

/*
 * Reports how many timers are on the wheel of a scheduler: writes it to `held`.
 *
 * They are the timers that are armed. If seats were given out, a timer that a seat cancelled counts too, until
 * it would have been due.
 *
 * ERT_RANGE: there is no such scheduler. ERT_CLOSED. It changes nothing. Constant work; no memory.
 */
int32_t ert_world_held(ert_world *world, uint32_t scheduler, uint64_t *held);

/*
 * Reports how many expired timers of a scheduler wait to be delivered: writes it to `expired`.
 *
 * After ert_world_turn or ert_world_deliver that returned ERT_OK it is 0.
 *
 * ERT_RANGE: there is no such scheduler. ERT_CLOSED. It changes nothing. Constant work; no memory.
 */
int32_t ert_world_expired(ert_world *world, uint32_t scheduler, uint64_t *expired);

/*
 * Reports how many messages are in the mailbox of a process: writes it to `count`.
 *
 * Messages of a process that has exited count too, though they can no longer be taken.
 *
 * ERT_RANGE: there is no such process. ERT_CLOSED. It changes nothing. Constant work; no memory.
 */
int32_t ert_world_mail_count(ert_world *world, uint32_t process, uint64_t *count);

/*
 * Reports whether a process is alive: writes 1 or 0 to `alive` (`erlang:is_process_alive`).
 *
 * Each process is alive from the opening until ert_world_exit is called for it, and not after that.
 *
 * ERT_RANGE: there is no such process. ERT_CLOSED. Constant work; no memory.
 */
int32_t ert_world_is_alive(ert_world *world, uint32_t process, uint32_t *alive);

/*
 * Makes a process exit, and cancels all timers whose message would go to it.
 *
 * Sets `first` to 1 if the process had not exited before. Otherwise it sets it to 0 and does nothing else. Messages
 * in its mailbox can no longer be taken, and a timer that expired and was not delivered is discarded.
 *
 * ERT_RANGE: there is no such process. ERT_CLOSED. Work for each wheel and for those timers; no memory.
 */
int32_t ert_world_exit(ert_world *world, uint32_t process, uint32_t *first);

/*
 * Cancels all timers whose message would go to a process, and writes how many there were to `cancelled`.
 *
 * The process lives on. After it no timer for it is armed. A message that is in its mailbox, and that of a timer that has
 * expired, come as before. A program that gives a process to each connection in turn calls this when a connection ends,
 * in place of ert_world_exit, after which no timer can be started for the process.
 *
 * ERT_RANGE: there is no such process. ERT_CLOSED. Work for each wheel and for those timers; no memory.
 */
int32_t ert_world_cancel_all(ert_world *world, uint32_t process, uint64_t *cancelled);

/*
 * Asks the scheduler of a timer to cancel or to read it (`cancel_timer` and `read_timer`, option `async`).
 *
 * The request waits in the inbox of the scheduler that the timer names (of scheduler 0, if it names none)
 * until a turn or ert_world_serve serves it. If `info` is not 0 the answer comes to the mailbox of
 * `reply_to`, as ERT_CANCEL_DONE or ERT_READ_DONE.
 *
 * ERT_BAD_KIND: `kind` is neither ERT_CANCEL nor ERT_READ; this is tested first. ERT_RANGE: there is no
 * process `reply_to`. ERT_NO_MEMORY: nothing has changed, and the call can be made again. ERT_CLOSED.
 */
int32_t ert_world_ask(ert_world *world, const ert_request *request);

/*
 * Takes the first message of a process (`receive`), and writes it to `mail`.
 *
 * Messages come in the order in which they were put in. This is how a program learns what has expired: after
 * each turn it takes the messages of its processes until there is none.
 *
 * ERT_EMPTY: there is no message. ERT_EXITED: the process has exited, whether it has messages or not. ERT_RANGE:
 * there is no such process. ERT_CLOSED. Constant work; no memory.
 */
int32_t ert_world_take(ert_world *world, uint32_t process, ert_mail *mail);

/*
 * Takes the first messages of a process, at most `room`, and writes them to `mails` in their order.
 *
 * Writes to `count` how many there are; the rest of `mails` is as it was. The status says how it ended, and the
 * messages were taken in each case: ERT_OK, `room` of them, and more may be there; ERT_EMPTY, the mailbox is empty now;
 * ERT_EXITED, the process has exited. So a program goes on until the status is not ERT_OK. `mails` has place for `room`
 * messages, and may not be null.
 *
 * ERT_RANGE: there is no such process. ERT_CLOSED. After these two `count` and `mails` are as they were. Work for the
 * messages that are taken; no memory.
 */
int32_t ert_world_take_some(ert_world *world, uint32_t process, ert_mail *mails, size_t room, size_t *count);

/*
 * Finds a process that has messages and hasn't exited, and writes its number to `process`.
 *
 * ERT_EMPTY is returned exactly if there is none. Each process has its turn: the next call finds another one, if
 * another has messages. So after a turn a program asks until ERT_EMPTY, and takes the messages of each process that the
 * call returns, without a call for each process that has none. The messages of a process that has exited can't be
 * taken, and it isn't found: a program that wants them takes them before ert_world_exit.
 *
 * ERT_NO_MEMORY: there was no memory for the first such call of the world, which makes a list of the processes, 5 bytes
 * for each; nothing has changed, and the call can be made again. ERT_CLOSED. Otherwise constant work, amortized: a step
 * for each process whose mailbox got messages since it was found empty or exited; no memory.
 */
int32_t ert_world_next_mail(ert_world *world, uint32_t *process);

/*
 * Makes room in the mailbox of a process for `count` messages more than it has.
 *
 * Until `count` messages were put there, ert_world_deliver and ert_world_serve need no memory for it. A mailbox has no
 * room at first, gets more when a message is put that finds none, and keeps it when messages are taken. So a program
 * that must get its messages in time makes the room ahead, for the most that can wait at once.
 *
 * ERT_NO_MEMORY: there is not as much memory; the mailbox has the room that it had. ERT_RANGE: there is no such process.
 * ERT_CLOSED. If there is the room already, constant work and no memory; otherwise work for the messages in the mailbox.
 */
int32_t ert_world_reserve_mail(ert_world *world, uint32_t process, size_t count);

/*
 * Gives back the memory of the mailbox of a process that its messages don't need, which a burst of them took: all of it,
 * if it is empty.
 *
 * ERT_NO_MEMORY: the allocator had no smaller block to move the messages to; nothing has changed, and the call can be
 * made again. It is never returned if the mailbox is empty. ERT_RANGE: there is no such process. ERT_CLOSED. Work for
 * the messages in the mailbox.
 */
int32_t ert_world_shrink_mail(ert_world *world, uint32_t process);

/*
 * Makes a monitor of the time offset for a process (`erlang:monitor(time_offset, clock_service)`), and writes
 * its number.
 *
 * When the offset has changed, ert_world_notify puts a message ERT_CHANGE for it into the mailbox.
 *
 * ERT_FULL: the process has 64 monitors, or the last number was given. ERT_NO_MEMORY: nothing has changed.
 * ERT_RANGE: there is no such process. ERT_CLOSED.
 */
int32_t ert_world_monitor(ert_world *world, uint32_t process, uint32_t *monitor);

/*
 * Removes a monitor (`erlang:demonitor`).
 *
 * No message comes for it after that; one that is in the mailbox stays there.
 *
 * ERT_NO_MONITOR: the process has no monitor of that number. ERT_RANGE: there is no such process.
 * ERT_CLOSED. Work for the monitors of the process, 64 at most; no memory.
 */
int32_t ert_world_demonitor(ert_world *world, uint32_t process, uint32_t monitor);

/*
 * Notifies the monitors of a process of the time offset: one message ERT_CHANGE for each whose last message, or
 * making, had another one. Writes how many messages were sent to `sent`.
 *
 * Call it for each process with monitors, after a tick or a finalization that set the offset.
 *
 * ERT_NO_MEMORY: nothing has changed, and the call can be made again. ERT_RANGE: there is no such process.
 * ERT_CLOSED.
 */
int32_t ert_world_notify(ert_world *world, uint32_t process, uint32_t *sent);

/*
 * Serves one request of a scheduler: one that an earlier call could not finish, or the first of its inbox.
 *
 * Writes 1 to `served`, or 0 if there was none.
 *
 * ERT_NO_MEMORY: the request stays, and is served by the next call; it never comes if there is room in the mailbox of
 * `reply_to` (ert_world_reserve_mail). ERT_RANGE: there is no such scheduler. ERT_CLOSED.
 */
int32_t ert_world_serve(ert_world *world, uint32_t scheduler, uint32_t *served);

/*
 * Expires every timer of a scheduler's wheel that is due at the current monotonic time.
 *
 * Expired timers wait at the scheduler until ert_world_deliver delivers them. Writes how many there were,
 * and that time, to `advanced`.
 *
 * ERT_NO_MEMORY: none has expired; it never comes if there is room in the list of expired timers for those that are due
 * (ert_world_reserve_expired). ERT_RANGE: there is no such scheduler. ERT_CLOSED. Work for the due timers and the
 * milliseconds since the last advance.
 */
int32_t ert_world_advance(ert_world *world, uint32_t scheduler, ert_advanced *advanced);

/*
 * Delivers the expired timers of a scheduler: each message is put into the mailbox of its process, or
 * discarded if the process has exited.
 *
 * They go in order of deadline, and then of start. Writes how many of both there were to `delivered`.
 *
 * ERT_NO_MEMORY: those that were not delivered stay, and the next call goes on with them; how many were delivered
 * is not reported then. It never comes if there is room in the mailbox of each of their processes
 * (ert_world_reserve_mail). ERT_RANGE: there is no such scheduler. ERT_CLOSED.
 */
int32_t ert_world_deliver(ert_world *world, uint32_t scheduler, ert_delivered *delivered);

/*
 * Makes a turn of a scheduler: serves its requests, 64 at most, advances its wheel, and delivers what has
 * expired. This is the call for an event loop, after each tick.
 *
 * Writes what it did to `turned`.
 *
 * ERT_NO_MEMORY: what was done stays done and is not reported, and the next turn goes on: nothing is lost. The advance
 * needs room in the list of expired timers, which ert_world_reserve_expired makes ahead, and the messages need room in
 * their mailboxes, which ert_world_reserve_mail makes ahead; if there is both, it never comes. ERT_RANGE: there is no
 * such scheduler. ERT_CLOSED.
 */
int32_t ert_world_turn(ert_world *world, uint32_t scheduler, ert_turned *turned);

/*
 * Makes a turn of a scheduler in which at most `most` timers expire and at most `most` expired timers are delivered.
 *
 * A loop in which very many timers can be due at once takes them in several passes, and handles its input between them.
 * Writes what it did to `turned`: `more` is 1 if timers are left that are due by `to` or have expired, or if the wheel
 * has not come to `to` because timers have to move within it first, and then the loop should not sleep, but make
 * another turn. That goes on with them, in order of deadline and then of start. If `more` is 0, no timer of the wheel
 * is due by `to`, as after ert_world_turn, and none has expired. The turn serves up to 64 requests, as ert_world_turn
 * does. With `most` 0 no timer expires or moves, and the call only reports whether there is more.
 *
 * The work is in proportion to `most`, with one exception. Timers move within the wheel as their deadlines come near, at
 * most `most` in a turn: if turns follow each other, a few in each millisecond; after a sleep, those of the windows that
 * begin (of 512 milliseconds, of 512 times that, and so on), in as many turns as they take. Before the first timer of a
 * millisecond expires all that are due in it are put in order of their starts, in as many turns as that takes: few if
 * none was restarted. The exception: timers that were started when their deadline had passed are all looked at once for
 * each deadline among them, and more often if they were not started in order of deadline.
 *
 * ERT_NO_MEMORY: as of ert_world_turn, but that the list needs room for `most` timers, or for all that are on the wheel
 * if those are fewer. ERT_RANGE: there is no such scheduler. ERT_CLOSED.
 */
int32_t ert_world_turn_some(ert_world *world, uint32_t scheduler, uint32_t most, ert_turned_some *turned);

/*
 * Returns the earliest time at which a timer of a scheduler can be due, in milliseconds since the start time, as `to`
 * of a turn.
 *
 * No armed timer of the wheel is due before it. So an event loop may sleep for `due` less `to` milliseconds
 * after a turn (as with `uv_backend_timeout`), unless something else wakes it. After a turn `due` is above `to`.
 *
 * `due` is the deadline of a timer, or the beginning of a window of 512 milliseconds, of 512 times that, and so on. It is a
 * deadline if at most 64 timers stand in the windows that come first: each timer stands in that of its deadline, or, if it
 * was restarted, in that of an earlier deadline. After a turn at the beginning of a window the answer is a deadline, or at
 * least 512 milliseconds later. So a loop wakes early once in 512 milliseconds at most, and not at all for few timers. A
 * timer that was cancelled through a seat doesn't wake it: the call looks whether the timer of the answer is armed, and if
 * it isn't, drops it and goes on with the next, at 1,024 timers at most. Only after as many, or if `due` is not after
 * the last turn's `to`, may `due` be too early because of such a timer.
 *
 * ERT_EMPTY: no timer is armed, and `due` is as it was. ERT_RANGE: there is no such scheduler. ERT_CLOSED.
 * No memory. The answer is cached: until time comes to it, an earlier timer is started, or no timer stands for it any more,
 * a call takes a few comparisons and a look at one timer. Else it looks at 64 timers
 * at most on each level of the wheel, and only if a timer was started whose deadline had passed at all that are due at the
 * next turn; and again for each timer that it drops.
 */
int32_t ert_world_next_due(ert_world *world, uint32_t scheduler, uint64_t *due);

/*
 * Drops all timers of a scheduler's wheel that were cancelled through seats, and writes how many there were to
 * `dropped`. Their slots can be used again, and ert_world_held counts them no more. ert_world_next_due does so for the
 * timers that are due next; this is for a world whose seats cancel many that are due far ahead.
 *
 * ERT_RANGE: there is no such scheduler, and `dropped` is as it was. ERT_CLOSED. Work for all slots of the wheel; no
 * memory.
 */
int32_t ert_world_drop_settled(ert_world *world, uint32_t scheduler, uint64_t *dropped);

/*
 * Makes room in the list of expired timers of a scheduler for `count` more than wait in it.
 *
 * Until `count` timers were due, ert_world_advance needs no memory; a timer that a seat cancelled counts when it would
 * have been due. The list has no room at first, gets more when timers expire that find none, and keeps it when
 * ert_world_deliver takes them out. So a program that must get its messages in time makes the room ahead, for the most
 * that can be due at once and wait: if none waits yet, room for `slots` of the settings is enough for good. With room
 * in the mailboxes (ert_world_reserve_mail) its turns take no memory.
 *
 * ERT_NO_MEMORY: there is not as much memory; the list has the room that it had. ERT_RANGE: there is no such scheduler.
 * ERT_CLOSED. If there is the room already, constant work and no memory; otherwise work for the timers in the list.
 */
int32_t ert_world_reserve_expired(ert_world *world, uint32_t scheduler, size_t count);

/*
 * Gives back the memory of the list of expired timers of a scheduler that those which wait don't need, which a burst of
 * timers took: all of it, if none waits.
 *
 * ERT_NO_MEMORY: the allocator had no smaller block to move the timers to; nothing has changed, and the call can be
 * made again. It is never returned if none waits. ERT_RANGE: there is no such scheduler. ERT_CLOSED. Work for the
 * timers in the list.
 */
int32_t ert_world_shrink_expired(ert_world *world, uint32_t scheduler);

/*
 * Opens a seat of a world behind a closed handle: its next caller, for the use of one thread at a time.
 *
 * The call uses both handles: make it as every call through the world's handle is made, and pass the seat to
 * its thread afterwards. A seat belongs to its world for good, and outlives its close. Its caller
 * is not assigned again, not even once the seat is closed.
 *
 * ERT_OPEN: the seat's handle is open. ERT_CLOSED: the world's is closed. ERT_NO_SEAT: each of callers 1 to
 * settings.callers - 1 was given a seat. ERT_NO_MEMORY: a later call can give the caller a seat. After each of
 * these nothing has changed behind either handle. Constant work; one small allocation.
 */
int32_t ert_seat_open(ert_seat *seat, ert_world *world);

/*
 * Closes a seat, on any thread, and frees its memory; with the last handle of a closed world also what
 * all of them shared.
 *
 * The world and its other seats go on, and nothing that the seat did is undone: timers that it cancelled stay
 * cancelled.
 *
 * The handle is as ERT_INIT makes it, and can be opened again, as another caller. ERT_CLOSED: the handle was
 * closed; a second close is safe. A seat that is forgotten while it is open leaks its memory.
 */
int32_t ert_seat_close(ert_seat *seat);

/*
 * Monotonic time, in nanoseconds, as ert_world_monotonic_time returns it.
 *
 * It is that of the last tick, whichever thread made it. If one call returned before another began, through
 * whatever handles, the later one never returns an earlier time.
 *
 * ERT_CLOSED. Constant work: one load of a word that only ticks write; no memory.
 */
int32_t ert_seat_monotonic_time(ert_seat *seat, int64_t *time);

/*
 * System time, in nanoseconds since 1970, as ert_world_system_time returns it.
 *
 * Monotonic time is read first, and then the time offset. A tick may come between: then the result is the sum of
 * the time before that tick and the offset after it. If the tick set the offset, system time had that value at no
 * moment.
 *
 * ERT_CLOSED. Constant work: two loads; no memory.
 */
int32_t ert_seat_system_time(ert_seat *seat, int64_t *time);

/*
 * The time offset, in nanoseconds, with its state, as ert_world_time_offset returns it.
 *
 * Both are of one moment. By the next call the thread that ticks may have set another, if its state allows that.
 *
 * ERT_CLOSED. Constant work: one load; no memory.
 */
int32_t ert_seat_time_offset(ert_seat *seat, ert_offset *offset);

/*
 * Cancels a timer, as ert_world_cancel does, whichever thread started it.
 *
 * Of all cancels and the expiry of a timer exactly one ends it. If it was this call, it returns ERT_OK and writes the
 * milliseconds that were left to `left`, and the timer's message never comes. The wheel doesn't notice: the timer's
 * slot stays in use until the timer would have been due, or until a start that finds no other free slot searches it.
 *
 * ERT_NO_TIMER: the timer is not armed: it has expired, was cancelled, or never existed; `left` is as it was.
 * ERT_CLOSED. Constant work: two loads, and one exchange if the timer is armed; no memory.
 */
int32_t ert_seat_cancel(ert_seat *seat, const ert_timer *timer, uint64_t *left);

/*
 * Reads the milliseconds that are left of a timer, as ert_world_read does, and changes nothing.
 *
 * Other threads may end the timer or tick right after the reads, so this is what was left during the call.
 *
 * ERT_NO_TIMER: the timer is not armed, and `left` is as it was. ERT_CLOSED. Constant work: two loads; no memory.
 */
int32_t ert_seat_read(ert_seat *seat, const ert_timer *timer, uint64_t *left);

/*
 * Reports whether a process is alive: writes 1 or 0 to `alive`, as ert_world_is_alive does.
 *
 * 0 is final. 1 was so at one moment of the call: another thread may make the process exit right after.
 *
 * ERT_RANGE: there is no such process. ERT_CLOSED. Constant work: one load; no memory.
 */
int32_t ert_seat_is_alive(ert_seat *seat, uint32_t process, uint32_t *alive);

/*
 * Hub and shards: a world that is divided among threads.
 *
 * A hub (`ert_hub`) has the clock. A shard (`ert_shard`) has one scheduler with its wheel, and some processes with their
 * mailboxes: as much as a thread with an event loop needs. Each thread starts timers on its own shard, for processes of
 * that, makes its own turns and takes its own messages, beside all other threads. No call takes a lock, and none waits.
 *
 *     settings.schedulers = threads;              one for each thread
 *     settings.processes = threads;               one or more for each
 *     settings.callers = threads + 1;             one for each shard, and caller 0 for the hub; more for seats (ert_hub_seat)
 *     ert_hub_open(&hub, &settings);
 *     for (i = 0; i < threads; i++) {
 *         ert_hub_shard(&hub, &shards[i], 1);     and then pass the shard to its thread
 *     }
 *
 * A shard cancels and reads the timers of all shards, by their names: of all cancels and the expiry of a timer exactly
 * one ends it, whichever threads they come from. The wheel of another shard doesn't notice: the timer's slot stays in
 * use until the timer would have been due, or until a start that finds no other free slot searches it. So if threads
 * are to end one another's timers, have one shard's thread start the timer and any thread cancel it.
 *
 * Time moves by ert_hub_tick alone, for all shards at once. One thread can tick, or whoever wakes does, under a lock of
 * the program around the hub. Who doesn't get it need not wait, since another thread is ticking:
 *
 *     if (pthread_mutex_trylock(&ticking) == 0) {
 *         read_clocks(&reading);
 *         ert_hub_tick(&hub, &reading, 0, &moved);
 *         pthread_mutex_unlock(&ticking);
 *     }
 *     ert_shard_turn(&shard, &turned);
 *
 * A start after it counts from the last tick, which is older than this pass if the thread that ticks was interrupted.
 * The clocks are read under the lock, so that the readings come in order. A thread that sleeps until ert_shard_next_due
 * has to look at the time when it wakes, as this does: it may have been the only one that was awake.
 *
 * Memory. ert_hub_open allocates and writes what the wheels of all shards need, and ert_hub_shard a block for each
 * shard. What comes later belongs to the thread that calls: mailboxes, monitors and expired timers that wait. What the
 * threads share while they run are the words of the clock, of processes and of timers; those of a wheel are on cache
 * lines apart from all others. On a machine with several memory nodes, what a wheel has of a slot lies on the node of
 * the thread that first uses the slot, and what threads share on that of the thread that opened the hub. Calls read
 * handles and don't write them, so handles may lie in one array.
 *
 * A handle of either kind begins as ERT_INIT, and what is said of handles, threads and forks at the beginning of this
 * file is so for these too: a hub and each shard are used by one thread at a time.
 */

/* A handle of a hub. It begins as ERT_INIT, which is all zero. Its fields are private. */
typedef struct {
    void *at_;
    bool live_;
} ert_hub;

/* A handle of a shard. It begins as ERT_INIT, which is all zero. Its fields are private. */
typedef struct {
    void *at_;
    bool live_;
} ert_shard;

/*
 * Opens a world that is to be divided among threads, and its hub behind a closed handle.
 *
 * It is the same as ert_world_open in all but the handle: the settings, the memory and the statuses. Each scheduler of
 * the settings can go to a shard, and needs a caller of its own: `callers` has to be above `schedulers`.
 *
 * ERT_OPEN: the handle is open, and stays as it was. ERT_BAD_SIZE, ERT_BAD_MODE, ERT_BAD_START, ERT_BAD_READING,
 * ERT_BAD_COUNT: the first of these, in this order, that holds of the settings; ERT_BAD_COUNT also if `callers` is not
 * above `schedulers`. ERT_NO_MEMORY: out of memory; the handle stays closed, and what was allocated is freed.
 */
int32_t ert_hub_open(ert_hub *hub, const ert_settings *settings);

/*
 * Closes a hub, on any thread, and frees its memory; with the last handle of a world also what all of them share.
 *
 * Shards stay open: their clock stands still, so nothing more expires, and they can still start, cancel and read timers.
 * Close the shards first, or after it; the order does not matter.
 *
 * The handle is as ERT_INIT makes it, and can be opened again. ERT_CLOSED: the handle was closed; a second close is safe.
 */
int32_t ert_hub_close(ert_hub *hub);

/*
 * Opens a seat behind a closed handle, for the next caller after those of the schedulers: `settings.callers` less
 * `settings.schedulers + 1` seats in all. A thread that has one reads the time, and cancels and reads the timers of all
 * shards, by the calls of a seat (ert_seat_..), beside the hub, all shards and all other seats.
 *
 * The call uses both handles: make it as every call of the hub is made, and pass the seat to its thread afterwards. A
 * caller is given out once: closing a seat does not give it back.
 *
 * ERT_OPEN: the seat's handle is open. ERT_CLOSED: the hub's is closed. ERT_NO_SEAT: each of these callers has a seat.
 * ERT_NO_MEMORY: out of memory; a later call can give the caller a seat. After each of these nothing has changed behind
 * either handle. Constant work; one small allocation.
 */
int32_t ert_hub_seat(ert_hub *hub, ert_seat *seat);

/*
 * Opens a shard behind a closed handle, with the last scheduler that the hub has left, and the last `processes` of its
 * processes.
 *
 * The call uses both handles: make it as every call of the hub is made, and pass the shard to its thread afterwards. So
 * the shard that is given first has the scheduler of the greatest number; ert_shard_processes returns which processes
 * it has. If `processes` is 0, the shard starts no timers. Until it is closed they are its own.
 *
 * ERT_OPEN: the shard's handle is open. ERT_CLOSED: the hub's is closed. ERT_NO_SHARD: no scheduler is left. ERT_RANGE:
 * the hub has not so many processes left. ERT_NO_MEMORY: out of memory; a later call can give the shard. After each of
 * these nothing is lost, and nothing has changed behind either handle. Work for these processes and for the schedulers
 * that are left; a few small allocations.
 */
int32_t ert_hub_shard(ert_hub *hub, ert_shard *shard, uint32_t processes);

/*
 * Passes a reading of the clocks of the operating system to the hub: monotonic time moves on by it for the hub and for
 * all shards, as by ert_world_tick.
 *
 * Other threads see the new time by their next call. If one call returned before another began, through whatever handles
 * of the world, the later one never sees an earlier time.
 *
 * Writes what it did to `moved`. ERT_BAD_READING and ERT_OFFSET_WIDE: refused, and the clock is as it was. ERT_CLOSED.
 * Constant work; no memory.
 */
int32_t ert_hub_tick(ert_hub *hub, const ert_reading *reading, uint32_t force, ert_moved *moved);

/*
 * Finalizes the time offset, as ert_world_finalize does.
 *
 * Writes the state before it to `before`, and what it did to `moved`. ERT_BAD_READING and ERT_OFFSET_WIDE: refused, and
 * the clock is as it was. ERT_CLOSED. Constant work; no memory.
 */
int32_t ert_hub_finalize(ert_hub *hub, const ert_reading *reading, uint32_t *before, ert_moved *moved);

/*
 * Monotonic time, in nanoseconds, as ert_world_monotonic_time returns it.
 *
 * ERT_CLOSED. Constant work; no memory.
 */
int32_t ert_hub_monotonic_time(ert_hub *hub, int64_t *time);

/*
 * System time, in nanoseconds since 1970, as ert_world_system_time returns it.
 *
 * ERT_CLOSED. Constant work; no memory.
 */
int32_t ert_hub_system_time(ert_hub *hub, int64_t *time);

/*
 * The time offset, in nanoseconds, with its state, as ert_world_time_offset returns it.
 *
 * ERT_CLOSED. Constant work; no memory.
 */
int32_t ert_hub_time_offset(ert_hub *hub, ert_offset *offset);

/*
 * Cancels a timer of whatever shard, beside all threads, as ert_seat_cancel does: the wheel doesn't notice.
 *
 * Writes the milliseconds that were left to `left`. ERT_NO_TIMER: the timer is not armed; `left` is as it was.
 * ERT_CLOSED. Constant work: two loads, and one exchange if the timer is armed; no memory.
 */
int32_t ert_hub_cancel(ert_hub *hub, const ert_timer *timer, uint64_t *left);

/*
 * Reads the milliseconds that are left of a timer of whatever shard, as ert_seat_read does, and changes nothing.
 *
 * ERT_NO_TIMER: the timer is not armed, and `left` is as it was. ERT_CLOSED. Constant work: two loads; no memory.
 */
int32_t ert_hub_read(ert_hub *hub, const ert_timer *timer, uint64_t *left);

/*
 * Closes a shard, on any thread, and frees its memory; with the last handle of a world also what all of them share.
 *
 * Nothing that the shard did is undone: its armed timers stay armed, so that others can cancel and read them, and never
 * expire. Messages that were not taken are discarded, and what their `msg` points to is not freed. Its scheduler and its
 * processes are not given out again.
 *
 * The handle is as ERT_INIT makes it, and can be opened again. ERT_CLOSED: the handle was closed; a second close is safe.
 */
int32_t ert_shard_close(ert_shard *shard);

/*
 * Reports which processes a shard has: writes the first of them to `from`, and the first after them to `to`.
 *
 * If both are the same, it has none. ERT_CLOSED. It changes nothing. Constant work; no memory.
 */
int32_t ert_shard_processes(ert_shard *shard, uint32_t *from, uint32_t *to);

/*
 * Monotonic time, in nanoseconds: that of the last tick, whichever thread made it.
 *
 * If one call returned before another began, through whatever handles, the later one never returns an earlier time.
 *
 * ERT_CLOSED. Constant work: one load of a word that only ticks write; no memory.
 */
int32_t ert_shard_monotonic_time(ert_shard *shard, int64_t *time);

/*
 * System time, in nanoseconds since 1970, as ert_seat_system_time returns it: a tick may come between its two loads.
 *
 * ERT_CLOSED. Constant work: two loads; no memory.
 */
int32_t ert_shard_system_time(ert_shard *shard, int64_t *time);

/*
 * The time offset, in nanoseconds, with its state: both are of one moment.
 *
 * ERT_CLOSED. Constant work: one load; no memory.
 */
int32_t ert_shard_time_offset(ert_shard *shard, ert_offset *offset);

/*
 * Starts a timer on the wheel of a shard, for a process of the shard, as ert_world_start does.
 *
 * Writes the timer's name to `timer`. ERT_RANGE: the process `dest` is not of the shard. ERT_BAD_TIME: `when` is
 * negative, or the deadline outside 0 to 8,796,093,022,207 milliseconds after the start time. ERT_FULL: no slot of the
 * wheel is available; if the wheel has more slots than settings.looks, none of that many that were searched (the next
 * starts search the others). A search finds the slots whose timers other shards have cancelled. ERT_CLOSED. No memory.
 * Constant work if a slot is known to be free; otherwise `looks` slots of the wheel are looked at, or all if there are
 * fewer.
 */
int32_t ert_shard_start(ert_shard *shard, const ert_start *start, ert_timer *timer);

/*
 * Restarts a timer that is armed, whichever shard started it: it gets a new deadline and a new name, as of
 * ert_world_restart.
 *
 * The timer is cancelled, and one is started on the wheel of this shard with all that `start` says: mostly in its slot
 * if it is of this shard. If it is of another one, its slot there stays in use as after ert_shard_cancel. Writes the
 * new name over the old one in `timer`.
 *
 * After each error the timer is as it was, armed or not, and so is `timer`. ERT_RANGE: the process `dest` is not of the
 * shard. ERT_BAD_TIME: as of ert_shard_start. ERT_NO_TIMER: the timer is not armed: it has expired, was cancelled, or
 * never existed. ERT_FULL: the timer is of another shard, or its slot has been used 262,143 times, and no slot of this
 * shard's wheel is available, as of ert_shard_start. ERT_CLOSED. Work as of ert_shard_cancel and ert_shard_start at
 * most; no memory.
 */
int32_t ert_shard_restart(ert_shard *shard, ert_timer *timer, const ert_start *start);

/*
 * Cancels a timer, whichever shard started it.
 *
 * After it the timer's message never comes. Writes the milliseconds that were left to `left`: 0 if it was due and had not
 * expired. If the timer is of this shard, its slot can be used again; if it is of another one, the slot stays in use
 * until the timer would have been due, or until a start that finds no other free slot searches it.
 *
 * ERT_NO_TIMER: the timer is not armed: it has expired, was cancelled, or never existed; `left` is as it was. ERT_CLOSED.
 * Constant work; no memory.
 */
int32_t ert_shard_cancel(ert_shard *shard, const ert_timer *timer, uint64_t *left);

/*
 * Reads the milliseconds that are left of a timer, whichever shard started it, and changes nothing.
 *
 * Other threads may end the timer or tick right after the reads, so this is what was left during the call.
 *
 * ERT_NO_TIMER: the timer is not armed, and `left` is as it was. ERT_CLOSED. Constant work: two loads; no memory.
 */
int32_t ert_shard_read(ert_shard *shard, const ert_timer *timer, uint64_t *left);

/*
 * Reports how many timers are on the wheel of the shard: writes it to `held`.
 *
 * They are the timers that are armed, and those that another thread cancelled, until they would have been due.
 *
 * ERT_CLOSED. It changes nothing. Constant work; no memory.
 */
int32_t ert_shard_held(ert_shard *shard, uint64_t *held);

/*
 * Reports how many expired timers of the shard wait to be delivered: writes it to `expired`.
 *
 * After ert_shard_turn or ert_shard_deliver that returned ERT_OK it is 0.
 *
 * ERT_CLOSED. It changes nothing. Constant work; no memory.
 */
int32_t ert_shard_expired(ert_shard *shard, uint64_t *expired);

/*
 * Reports how many messages are in the mailbox of a process of the shard: writes it to `count`. Messages of a process
 * that has exited count too.
 *
 * ERT_RANGE: the process is not of the shard. ERT_CLOSED. It changes nothing. Constant work; no memory.
 */
int32_t ert_shard_mail_count(ert_shard *shard, uint32_t process, uint64_t *count);

/*
 * Reports whether a process of whatever shard is alive: writes 1 or 0 to `alive`. 0 is final.
 *
 * ERT_RANGE: there is no such process. ERT_CLOSED. Constant work: one load; no memory.
 */
int32_t ert_shard_is_alive(ert_shard *shard, uint32_t process, uint32_t *alive);

/*
 * Makes a process of the shard exit, and cancels all timers whose message would go to it: they are all of this shard.
 *
 * Sets `first` to 1 if the process had not exited before. Otherwise it sets it to 0 and does nothing else. Messages in
 * its mailbox can no longer be taken, and a timer that expired and was not delivered is discarded.
 *
 * ERT_RANGE: the process is not of the shard. ERT_CLOSED. Work for those timers; no memory.
 */
int32_t ert_shard_exit(ert_shard *shard, uint32_t process, uint32_t *first);

/*
 * Takes the first message of a process of the shard, as ert_world_take does, and writes it to `mail`.
 *
 * ERT_EMPTY: there is no message. ERT_EXITED: the process has exited, whether it has messages or not. ERT_RANGE: the
 * process is not of the shard. ERT_CLOSED. Constant work; no memory.
 */
int32_t ert_shard_take(ert_shard *shard, uint32_t process, ert_mail *mail);

/*
 * Takes the first messages of a process of the shard, at most `room`, as ert_world_take_some does, and writes them to
 * `mails` in their order and how many there are to `count`.
 *
 * The status says how it ended, and the messages were taken in each case: ERT_OK, `room` of them, and more may be there;
 * ERT_EMPTY, the mailbox is empty now; ERT_EXITED, the process has exited. `mails` has place for `room` messages, and may
 * not be null.
 *
 * ERT_RANGE: the process is not of the shard. ERT_CLOSED. After these two `count` and `mails` are as they were. Work for
 * the messages that are taken; no memory.
 */
int32_t ert_shard_take_some(ert_shard *shard, uint32_t process, ert_mail *mails, size_t room, size_t *count);

/*
 * Finds a process of the shard that has messages and hasn't exited, as ert_world_next_mail does, and writes its number to
 * `process`.
 *
 * ERT_EMPTY is returned exactly if there is none. Each process has its turn: the next call finds another one, if another
 * has messages.
 *
 * ERT_NO_MEMORY: there was no memory for the first such call of the shard, which makes a list of its processes, 5 bytes
 * for each; nothing has changed, and the call can be made again. ERT_CLOSED. Otherwise constant work, amortized: a step
 * for each process of the shard whose mailbox got messages since it was found empty or exited; no memory.
 */
int32_t ert_shard_next_mail(ert_shard *shard, uint32_t *process);

/*
 * Makes room in the mailbox of a process of the shard for `count` messages more than it has, as ert_world_reserve_mail
 * does: until `count` were put there, ert_shard_deliver and ert_shard_serve need no memory for it.
 *
 * ERT_NO_MEMORY: there is not as much memory; the mailbox has the room that it had. ERT_RANGE: the process is not of the
 * shard. ERT_CLOSED. Work as of ert_world_reserve_mail.
 */
int32_t ert_shard_reserve_mail(ert_shard *shard, uint32_t process, size_t count);

/*
 * Gives back the memory of the mailbox of a process of the shard that its messages don't need, as ert_world_shrink_mail
 * does.
 *
 * ERT_NO_MEMORY: as of ert_world_shrink_mail. ERT_RANGE: the process is not of the shard. ERT_CLOSED. Work for the
 * messages in the mailbox.
 */
int32_t ert_shard_shrink_mail(ert_shard *shard, uint32_t process);

/*
 * Requests that the scheduler of the shard cancels or reads a timer, as ert_world_ask does, and sends the answer to a
 * process of the shard. A turn of the shard serves it.
 *
 * The timer may be of any shard: one of another shard is cancelled as by ert_shard_cancel.
 *
 * ERT_BAD_KIND: `kind` is neither ERT_CANCEL nor ERT_READ; this is tested first. ERT_RANGE: the process `reply_to` is
 * not of the shard. ERT_NO_MEMORY: nothing has changed, and the call can be made again. ERT_CLOSED.
 */
int32_t ert_shard_ask(ert_shard *shard, const ert_request *request);

/*
 * Serves one request of the shard, as ert_world_serve does, and writes 1 to `served`, or 0 if there was none.
 *
 * ERT_NO_MEMORY: the request stays, and is served by the next call. ERT_RANGE: its answer would go to a process of
 * another shard; this never comes, since a shard takes requests for its own processes alone. ERT_CLOSED.
 */
int32_t ert_shard_serve(ert_shard *shard, uint32_t *served);

/*
 * Makes a monitor of the time offset for a process of the shard, as ert_world_monitor does, and writes its number.
 *
 * ERT_FULL: the process has 64 monitors, or the last number was given. ERT_NO_MEMORY: nothing has changed. ERT_RANGE: the
 * process is not of the shard. ERT_CLOSED.
 */
int32_t ert_shard_monitor(ert_shard *shard, uint32_t process, uint32_t *monitor);

/*
 * Removes a monitor of a process of the shard, as ert_world_demonitor does.
 *
 * ERT_NO_MONITOR: the process has no monitor of that number. ERT_RANGE: the process is not of the shard. ERT_CLOSED.
 */
int32_t ert_shard_demonitor(ert_shard *shard, uint32_t process, uint32_t monitor);

/*
 * Notifies the monitors of a process of the shard of the time offset, as ert_world_notify does, and writes how many
 * messages were sent to `sent`.
 *
 * ERT_NO_MEMORY: nothing has changed, and the call can be made again. ERT_RANGE: the process is not of the shard.
 * ERT_CLOSED.
 */
int32_t ert_shard_notify(ert_shard *shard, uint32_t process, uint32_t *sent);

/*
 * Expires every timer of the shard that is due at the current monotonic time, as ert_world_advance does.
 *
 * Writes how many there were, and that time, to `advanced`. ERT_NO_MEMORY: none has expired; it never comes if there is
 * room in the list of expired timers for those that are due (ert_shard_reserve_expired). ERT_CLOSED. Work for the due
 * timers and the milliseconds since the last advance.
 */
int32_t ert_shard_advance(ert_shard *shard, ert_advanced *advanced);

/*
 * Delivers the expired timers of the shard, as ert_world_deliver does, and writes how many messages were put and
 * discarded to `delivered`.
 *
 * ERT_NO_MEMORY: those that were not delivered stay, and the next call goes on with them. ERT_CLOSED.
 */
int32_t ert_shard_deliver(ert_shard *shard, ert_delivered *delivered);

/*
 * Makes a turn of the shard: serves at most 64 of its requests, advances its wheel, and delivers what has expired. This
 * is the call for the event loop of its thread.
 *
 * Writes what it did to `turned`. ERT_NO_MEMORY: what was done stays done and is not reported, and the next turn goes
 * on; it never comes if there is room in the list of expired timers (ert_shard_reserve_expired) and in the mailboxes
 * (ert_shard_reserve_mail). ERT_CLOSED.
 */
int32_t ert_shard_turn(ert_shard *shard, ert_turned *turned);

/*
 * Makes a turn of the shard in which at most `most` timers expire and at most `most` expired timers are delivered, as
 * ert_world_turn_some does.
 *
 * Writes what it did to `turned`: `more` is 1 if timers are left that are due by `to` or have expired, or if the wheel
 * has not come to `to` because timers have to move within it first, and then the thread should not sleep, but make
 * another turn, which goes on with them. If `more` is 0, no timer of the shard is due by `to`, and none has expired.
 * With `most` 0 it serves requests and reports whether there is more. A timer that another thread cancelled counts as
 * one of the `most` if it would be due.
 *
 * ERT_NO_MEMORY: as of ert_shard_turn, but that the list needs room for `most` timers, or for all that are on the wheel
 * if those are fewer. ERT_CLOSED. Work as of ert_world_turn_some.
 */
int32_t ert_shard_turn_some(ert_shard *shard, uint32_t most, ert_turned_some *turned);

/*
 * Returns the earliest time at which a timer of the shard can be due, in milliseconds since the start time, as `to` of a
 * turn.
 *
 * What ert_world_next_due says of it holds here too, of the timers that other threads cancelled.
 *
 * ERT_EMPTY: no timer is on the wheel, and `due` is as it was. ERT_CLOSED. Work as of ert_world_next_due.
 */
int32_t ert_shard_next_due(ert_shard *shard, uint64_t *due);

/*
 * Drops all timers of the shard's wheel that other threads cancelled, and writes how many there were to `dropped`, as
 * ert_world_drop_settled does.
 *
 * ERT_CLOSED. Work for all slots of the wheel; no memory.
 */
int32_t ert_shard_drop_settled(ert_shard *shard, uint64_t *dropped);

/*
 * Makes room in the list of expired timers of the shard for `count` more than wait in it, as ert_world_reserve_expired
 * does: until `count` were due, ert_shard_advance needs no memory. If none waits yet, room for `slots` of the settings
 * is enough for good.
 *
 * ERT_NO_MEMORY: there is not as much memory; the list has the room that it had. ERT_CLOSED. Work as of
 * ert_world_reserve_expired.
 */
int32_t ert_shard_reserve_expired(ert_shard *shard, size_t count);

/*
 * Gives back the memory of the list of expired timers of the shard that those which wait don't need, as
 * ert_world_shrink_expired does.
 *
 * ERT_NO_MEMORY: as of ert_world_shrink_expired. ERT_CLOSED. Work for the timers in the list.
 */
int32_t ert_shard_shrink_expired(ert_shard *shard);

/* Under ThreadSanitizer each call has a wrapper, which tells what the call orders and shows two threads on one handle. */
#if defined(__SANITIZE_THREAD__)
#include "ertime_tsan.h"
#elif defined(__has_feature)
#if __has_feature(thread_sanitizer)
#include "ertime_tsan.h"
#endif
#endif

/*
 * Takes all messages of a process and drops them, and writes how many there were to `dropped`: for a process that goes
 * from a connection that has ended to the next (ert_world_cancel_all). It is in the header, and calls ert_world_take.
 *
 * ERT_OK: the mailbox is empty now. ERT_EXITED: the process has exited; none was taken. ERT_RANGE: there is no such
 * process. ERT_CLOSED. `dropped` is 0 after all but ERT_OK. What their `msg` points to is not freed, and a timer that has
 * expired and was not delivered puts its message there later. Work for the messages; no memory.
 */
static inline int32_t ert_world_drop_mail(ert_world *world, uint32_t process, uint64_t *dropped) {
    ert_mail mail;
    int32_t status;
    *dropped = 0;
    while ((status = ert_world_take(world, process, &mail)) == ERT_OK) {
        *dropped += 1;
    }
    return status == ERT_EMPTY ? ERT_OK : status;
}

#ifdef __cplusplus
}
#endif

#endif
