/*
 * A fuzzer of the interface in C: bytes are read as settings and calls of a service and its seats, and each answer is
 * compared with that of a mirror. With clang's -fsanitize=fuzzer the input is the fuzzer's; built with
 * -DSTANDALONE the program makes inputs of its own, as many as its first word says, from the seed in its second, or
 * runs the files that it is given.
 */
#include <inttypes.h>
#include <stdio.h>
#include <stdlib.h>

#include "mirror.h"

#define MILLISECOND INT64_C(1000000)
#define LAST_READING (INT64_C(1) << 61)
#define SAME(got, wanted) mirror_same(#got, (long long)(got), (long long)(wanted))

typedef struct {
    const uint8_t *at;
    size_t left;
} Input;

typedef struct {
    ert_world world;
    ert_seat seat;
    Mirror mirror;
    Input input;
    int64_t mono, sys; /* of the clocks of the operating system */
} Run;

static uint32_t byte(Input *input) {
    if (input->left == 0) {
        return 0;
    }
    input->left -= 1;
    return *input->at++;
}

static uint64_t number(Input *input, int bytes) {
    uint64_t made = 0;
    for (int i = 0; i < bytes; i++) {
        made = made << 8 | byte(input);
    }
    return made;
}

/* Milliseconds: mostly few, sometimes years. */
static int64_t wait(Input *input) {
    uint32_t size = byte(input);
    if (size < 128) {
        return size & 31;
    }
    return (int64_t)number(input, size < 192 ? 1 : size < 232 ? 2 : size < 248 ? 3 : 4);
}

/* The name of a timer that was started, or, now and then, of none. */
static ert_timer name(Run *run) {
    uint32_t pick = (uint32_t)number(&run->input, 2);
    if (run->mirror.started == 0 || pick % 16 == 15) {
        return (ert_timer){pick % 5, pick % 7, pick};
    }
    return run->mirror.timers[run->mirror.started - 1 - pick % (run->mirror.started < 64 ? run->mirror.started : 64)].name;
}

/* A number below a count. */
static uint32_t some(Run *run, uint32_t count) {
    return byte(&run->input) % count;
}

static void do_start(Run *run) {
    uint32_t how = byte(&run->input), sched = how % 4;
    ert_start start = {wait(&run->input), number(&run->input, 1), (how >> 2) & 1, (how >> 3) & 1, (how >> 4) % 5};
    if (how == 255) {
        start.when = -start.when - 1;
    }
    if (start.absolute) {
        start.when += run->mirror.now / MILLISECOND;
    }
    int32_t wanted = mirror_start(&run->mirror, sched, &start);
    ert_timer timer;
    int32_t status = ert_world_start(&run->world, sched, &start, &timer);
    if (status == ERT_FULL && wanted == ERT_OK && mirror_may_miss(&run->mirror, sched)) {
        return;
    }
    SAME(status, wanted);
    if (wanted == ERT_OK) {
        mirror_started(&run->mirror, sched, &start, &timer);
    }
}

static void do_restart(Run *run) {
    uint32_t how = byte(&run->input);
    ert_start start = {wait(&run->input), number(&run->input, 1), 0, (how >> 3) & 1, (how >> 4) % 5};
    ert_timer timer = name(run), old = timer;
    if (how % 8 == 7) {
        start.when = -start.when - 1;
    }
    int32_t wanted = mirror_restart(&run->mirror, &timer, &start);
    SAME(ert_world_restart(&run->world, &timer, &start), wanted);
    if (wanted == ERT_OK) {
        mirror_started(&run->mirror, old.wheel, &start, &timer);
    } else {
        SAME(timer.generation, old.generation);
    }
}

static void do_cancel(Run *run) {
    bool by_seat = byte(&run->input) % 4 == 0;
    ert_timer timer = name(run);
    uint64_t left = 7, wanted = 7;
    int32_t status = mirror_cancel(&run->mirror, &timer, by_seat, &wanted);
    SAME(by_seat ? ert_seat_cancel(&run->seat, &timer, &left) : ert_world_cancel(&run->world, &timer, &left), status);
    SAME(left, wanted);
}

static void do_read(Run *run) {
    bool by_seat = byte(&run->input) & 1;
    ert_timer timer = name(run);
    uint64_t left = 7, wanted = 7;
    int32_t status = mirror_read(&run->mirror, &timer, &wanted);
    SAME(by_seat ? ert_seat_read(&run->seat, &timer, &left) : ert_world_read(&run->world, &timer, &left), status);
    SAME(left, wanted);
}

/* Whether the library takes it: the header's limits of a reading. */
static bool is_valid(const ert_reading *reading) {
    return reading->mono >= 0 && reading->mono < INT64_C(1) << 62 && reading->sys > -(INT64_C(1) << 61) && reading->sys < INT64_C(1) << 61;
}

/* The OS clocks go on, apart by up to a hundredth, and now and then system time leaps. They stay where a reading isn't
 * valid. */
static ert_reading read_clocks(Run *run) {
    uint32_t how = byte(&run->input);
    int64_t passed = wait(&run->input) * MILLISECOND + (int64_t)number(&run->input, 1) * 4000;
    ert_reading reading = {run->mono + passed, run->sys + passed + (how & 1 ? passed / 200 : 0) - (how & 2 ? passed / 300 : 0)};
    if (how >= 240) {
        reading.sys += ((int64_t)number(&run->input, 2) - 32768) * (how & 4 ? 1000 : 1) * MILLISECOND;
    }
    if (is_valid(&reading)) {
        run->mono = reading.mono;
        run->sys = reading.sys;
    }
    reading.mono -= how == 239;
    return reading;
}

static void do_tick(Run *run) {
    ert_reading reading = read_clocks(run);
    ert_moved moved;
    uint32_t force = byte(&run->input) & 1;
    if (!is_valid(&reading)) {
        SAME(ert_world_tick(&run->world, &reading, force, &moved), ERT_BAD_READING);
        return;
    }
    SAME(ert_world_tick(&run->world, &reading, force, &moved), ERT_OK);
    mirror_moved(&run->mirror, &reading, &moved, false);
}

static void do_finalize(Run *run) {
    ert_reading reading = read_clocks(run);
    ert_moved moved;
    uint32_t before = 9;
    if (!is_valid(&reading)) {
        SAME(ert_world_finalize(&run->world, &reading, &before, &moved), ERT_BAD_READING);
        SAME(before, 9);
        return;
    }
    SAME(ert_world_finalize(&run->world, &reading, &before, &moved), ERT_OK);
    SAME(before, run->mirror.state);
    mirror_moved(&run->mirror, &reading, &moved, true);
}

static void do_times(Run *run) {
    int64_t world, seat;
    ert_offset offset;
    SAME(ert_world_monotonic_time(&run->world, &world), ERT_OK);
    SAME(ert_seat_monotonic_time(&run->seat, &seat), ERT_OK);
    SAME(world, run->mirror.now);
    SAME(seat, run->mirror.now);
    SAME(ert_world_system_time(&run->world, &world), ERT_OK);
    SAME(ert_seat_system_time(&run->seat, &seat), ERT_OK);
    SAME(world, run->mirror.now + run->mirror.offset);
    SAME(seat, run->mirror.now + run->mirror.offset);
    SAME(ert_world_time_offset(&run->world, &offset), ERT_OK);
    SAME(offset.offset, run->mirror.offset);
    SAME(offset.state, run->mirror.state);
    SAME(ert_seat_time_offset(&run->seat, &offset), ERT_OK);
    SAME(offset.offset, run->mirror.offset);
    SAME(offset.state, run->mirror.state);
}

static void same_mail(const ert_mail *got, const ert_mail *wanted) {
    SAME(got->tag, wanted->tag);
    SAME(got->timer.wheel, wanted->timer.wheel);
    SAME(got->timer.slot, wanted->timer.slot);
    SAME(got->timer.generation, wanted->timer.generation);
    SAME(got->has_left, wanted->has_left);
    SAME(got->monitor, wanted->monitor);
    SAME(got->msg, wanted->msg);
    SAME(got->left, wanted->left);
    SAME(got->offset, wanted->offset);
}

static void take(Run *run, uint32_t process) {
    ert_mail got, wanted;
    int32_t status = mirror_take(&run->mirror, process, &wanted);
    SAME(ert_world_take(&run->world, process, &got), status);
    if (status == ERT_OK) {
        same_mail(&got, &wanted);
    }
}

/* Several messages at once, and the places after them stay as they were. */
static void take_some(Run *run, uint32_t process) {
    enum { ROOM = 5 };
    ert_mail got[ROOM], wanted;
    size_t room = byte(&run->input) % (ROOM + 1), count = 99, taken = 0;
    int32_t status = ERT_OK;
    for (size_t i = 0; i < ROOM; i++) {
        got[i].tag = 77;
    }
    int32_t ended = ert_world_take_some(&run->world, process, got, room, &count);
    for (; taken < room && (status = mirror_take(&run->mirror, process, &wanted)) == ERT_OK; taken++) {
        same_mail(&got[taken], &wanted);
    }
    SAME(ended, status);
    SAME(count, taken);
    for (; taken < ROOM; taken++) {
        SAME(got[taken].tag, 77);
    }
}

/* A process with mail is found exactly if one that hasn't exited has mail. */
static void next_mail(Run *run) {
    uint32_t process = 99, some = 0;
    for (uint32_t i = 0; i < run->mirror.settings.processes; i++) {
        some += mirror_can_take(&run->mirror, i);
    }
    SAME(ert_world_next_mail(&run->world, &process), some == 0 ? ERT_EMPTY : ERT_OK);
    SAME(some == 0 ? process == 99 : process < run->mirror.settings.processes && mirror_can_take(&run->mirror, process), true);
}

/* Room for some messages, or for some expired timers, is made or given back: no later answer tells it. */
static void change_room(Run *run, uint32_t process, uint32_t how) {
    uint32_t sched = process % run->mirror.settings.schedulers;
    if (how % 4 == 0) {
        SAME(ert_world_reserve_mail(&run->world, process, how), ERT_OK);
        SAME(ert_world_reserve_mail(&run->world, process, SIZE_MAX), ERT_NO_MEMORY);
    } else if (how % 4 == 1) {
        SAME(ert_world_shrink_mail(&run->world, process), ERT_OK);
    } else if (how % 4 == 2) {
        SAME(ert_world_reserve_expired(&run->world, sched, how), ERT_OK);
        SAME(ert_world_reserve_expired(&run->world, sched, SIZE_MAX), ERT_NO_MEMORY);
    } else {
        SAME(ert_world_shrink_expired(&run->world, sched), ERT_OK);
    }
}

static void do_mail(Run *run) {
    uint32_t how = byte(&run->input), process = some(run, run->mirror.settings.processes);
    if (how >= 192) {
        change_room(run, process, how - 192);
    } else if (how % 2 == 0) {
        take_some(run, process);
    } else {
        next_mail(run);
    }
}

static void do_ask(Run *run) {
    uint32_t how = byte(&run->input);
    ert_request request = {how & 1, name(run), (how >> 1) % PROCESSES, (how >> 4) & 1};
    bool in_range = request.reply_to < run->mirror.settings.processes;
    SAME(ert_world_ask(&run->world, &request), in_range ? ERT_OK : ERT_RANGE);
    if (in_range) {
        mirror_ask(&run->mirror, &request);
    }
}

static void step(Run *run, uint32_t sched, uint32_t what) {
    uint32_t served;
    ert_advanced advanced;
    ert_delivered delivered;
    ert_turned turned;
    if (what == 0) {
        SAME(ert_world_serve(&run->world, sched, &served), ERT_OK);
        SAME(served, mirror_serve(&run->mirror, sched));
    } else if (what == 1) {
        ert_advanced wanted = mirror_advance(&run->mirror, sched);
        SAME(ert_world_advance(&run->world, sched, &advanced), ERT_OK);
        SAME(advanced.to, wanted.to);
        SAME(advanced.expired, wanted.expired);
    } else if (what == 2) {
        ert_delivered wanted = mirror_deliver(&run->mirror, sched);
        SAME(ert_world_deliver(&run->world, sched, &delivered), ERT_OK);
        SAME(delivered.put, wanted.put);
        SAME(delivered.dropped, wanted.dropped);
    } else {
        ert_turned wanted = mirror_turn(&run->mirror, sched);
        SAME(ert_world_turn(&run->world, sched, &turned), ERT_OK);
        SAME(turned.to, wanted.to);
        SAME(turned.served, wanted.served);
        SAME(turned.expired, wanted.expired);
        SAME(turned.put, wanted.put);
        SAME(turned.dropped, wanted.dropped);
    }
}

static void monitor(Run *run, uint32_t process) {
    Process *of = &run->mirror.processes[process];
    uint32_t made = 0;
    int32_t status = ert_world_monitor(&run->world, process, &made);
    SAME(status, of->standing == MONITORS ? ERT_FULL : ERT_OK);
    if (status == ERT_OK) {
        of->monitors[of->standing++] = (Monitor){made, run->mirror.offset};
    }
}

static void do_process(Run *run) {
    uint32_t process = some(run, run->mirror.settings.processes), how = byte(&run->input), what = how & 7;
    uint32_t got = 9, monitored;
    if (how >= 192) {
        uint64_t cancelled = 9;
        SAME(ert_world_cancel_all(&run->world, process, &cancelled), ERT_OK);
        SAME(cancelled, mirror_cancel_all(&run->mirror, process));
    } else if (what == 0) {
        SAME(ert_world_exit(&run->world, process, &got), ERT_OK);
        SAME(got, mirror_exit(&run->mirror, process));
    } else if (what < 4) {
        monitor(run, process);
    } else if (what == 4) {
        monitored = byte(&run->input);
        SAME(ert_world_demonitor(&run->world, process, monitored), mirror_demonitor(&run->mirror, process, monitored));
    } else if (what < 7) {
        SAME(ert_world_notify(&run->world, process, &got), ERT_OK);
        SAME(got, mirror_notify(&run->mirror, process));
    } else {
        SAME(ert_world_is_alive(&run->world, process, &got), ERT_OK);
        SAME(got, !run->mirror.processes[process].exited);
        SAME(ert_seat_is_alive(&run->seat, process, &got), ERT_OK);
        SAME(got, !run->mirror.processes[process].exited);
    }
}

static void do_take(Run *run) {
    take(run, some(run, run->mirror.settings.processes));
}

static void do_step(Run *run) {
    uint32_t what = byte(&run->input) & 7;
    step(run, some(run, run->mirror.settings.schedulers), what);
}

static void look(Run *run, uint32_t sched) {
    uint64_t due = 0, ready = 7;
    uint32_t room = 9;
    int32_t status = ert_world_next_due(&run->world, sched, &due);
    mirror_next_due(&run->mirror, sched, status, due);
    SAME(ert_world_ready(&run->world, sched, &room, &ready), ERT_OK);
    SAME(room, mirror_room(&run->mirror, sched));
    SAME(ready, 0); /* no slot has used up its round */
}

static void do_look(Run *run) {
    look(run, some(run, run->mirror.settings.schedulers));
}

static void do_drop(Run *run) {
    uint32_t sched = some(run, run->mirror.settings.schedulers);
    uint64_t before = 0, dropped = 0, held = 0;
    SAME(ert_world_held(&run->world, sched, &before), ERT_OK);
    SAME(ert_world_drop_settled(&run->world, sched, &dropped), ERT_OK);
    SAME(ert_world_held(&run->world, sched, &held), ERT_OK);
    SAME(held, mirror_drop_settled(&run->mirror, sched));
    SAME(before, held + dropped);
}

/* The calls, those that tell most more than once. */
static void (*const calls[])(Run *) = {
    do_start, do_start, do_start, do_start, do_start, do_start, do_start,   do_cancel,   do_cancel, do_read, do_tick,
    do_tick,  do_tick,  do_tick,  do_times, do_take,  do_take,  do_ask,     do_ask,      do_step,   do_step, do_step,
    do_step,  do_step,  do_step,  do_step,  do_look,  do_look,  do_look,    do_look,     do_process, do_finalize,
    do_mail,  do_mail,  do_mail,  do_restart, do_restart, do_drop,
};

/* At the end every timer that is armed is let expire, and every message taken. */
static void drain(Run *run) {
    for (uint32_t sched = 0; sched < run->mirror.settings.schedulers; sched++) {
        while (run->mirror.wheels[sched].first < run->mirror.wheels[sched].last) {
            step(run, sched, 3);
        }
        look(run, sched);
    }
    for (uint32_t process = 0; process < run->mirror.settings.processes; process++) {
        do {
            take(run, process);
        } while (run->mirror.processes[process].first < run->mirror.processes[process].last && !run->mirror.processes[process].exited);
    }
}

int LLVMFuzzerTestOneInput(const uint8_t *data, size_t size);
int LLVMFuzzerTestOneInput(const uint8_t *data, size_t size) {
    static Run run = {.world = ERT_INIT, .seat = ERT_INIT};
    run.input = (Input){data, size};
    uint32_t how = byte(&run.input);
    ert_settings settings = {.size = sizeof settings, .mode = how % 3, .correction = (how >> 2) & 1};
    settings.schedulers = 1 + (how >> 3) % WHEELS;
    settings.processes = 1 + (how >> 5) % PROCESSES;
    uint32_t many = byte(&run.input);
    settings.slots = 1 + many * (how >> 7 ? 4 : 1) % 300;
    settings.looks = 1 + many * 7 % 100; /* more than the slots, or fewer */
    settings.callers = 2;
    settings.start = ((int64_t)byte(&run.input) - 128) * 1000 * MILLISECOND;
    run.mono = (int64_t)number(&run.input, 2) * 1000;
    run.sys = INT64_C(1700000000) * 1000 * MILLISECOND + (int64_t)number(&run.input, 2);
    settings.first = (ert_reading){run.mono, run.sys};
    SAME(ert_world_open(&run.world, &settings), ERT_OK);
    SAME(ert_seat_open(&run.seat, &run.world), ERT_OK);
    ert_offset offset;
    SAME(ert_world_time_offset(&run.world, &offset), ERT_OK);
    mirror_open(&run.mirror, &settings, offset.offset);
    while (run.input.left > 0 && run.mono < LAST_READING && mirror_has_room(&run.mirror)) {
        calls[byte(&run.input) % (sizeof calls / sizeof *calls)](&run);
    }
    drain(&run);
    SAME(ert_world_close(&run.world), ERT_OK);
    SAME(ert_seat_close(&run.seat), ERT_OK);
    return 0;
}

#ifdef STANDALONE
static uint64_t drawn(uint64_t *seed) {
    *seed ^= *seed << 13;
    *seed ^= *seed >> 7;
    *seed ^= *seed << 17;
    return *seed;
}

int main(int argc, char **argv) {
    static uint8_t data[4096];
    long count = argc > 1 ? strtol(argv[1], NULL, 10) : 1000;
    uint64_t seed = (argc > 2 ? strtoull(argv[2], NULL, 10) : 1) * UINT64_C(0x9e3779b97f4a7c15) | 1;
    for (long i = 0; i < count; i++) {
        size_t size = 1 + drawn(&seed) % sizeof data;
        for (size_t at = 0; at < size; at++) {
            data[at] = (uint8_t)drawn(&seed);
        }
        LLVMFuzzerTestOneInput(data, size);
    }
    printf("%ld sequences of calls were answered as the mirror answers them\n", count);
    return 0;
}
#endif
