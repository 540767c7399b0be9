#include "mirror.h"

#include <inttypes.h>
#include <stdio.h>
#include <stdlib.h>
#include <string.h>

#define MILLISECOND INT64_C(1000000)
#define LATEST INT64_C(8796093022207) /* the greatest deadline */

_Noreturn void mirror_fail(const char *what, long long got, long long wanted) {
    fprintf(stderr, "%s: %lld, not %lld\n", what, got, wanted);
    abort();
}

void mirror_same(const char *what, long long got, long long wanted) {
    if (got != wanted) {
        mirror_fail(what, got, wanted);
    }
}

void mirror_open(Mirror *mirror, const ert_settings *settings, int64_t offset) {
    mirror->started = 0;
    for (uint32_t i = 0; i < PROCESSES; i++) {
        Process *process = &mirror->processes[i];
        process->exited = false;
        process->first = process->last = process->standing = 0;
    }
    for (uint32_t i = 0; i < WHEELS; i++) {
        Wheel *wheel = &mirror->wheels[i];
        wheel->first = wheel->last = wheel->waiting = 0;
        wheel->was_advanced = false;
    }
    mirror->settings = *settings;
    mirror->now = settings->start;
    mirror->offset = offset;
    mirror->mono = settings->first.mono;
    mirror->state = settings->mode == ERT_NO_WARP ? ERT_FINAL : settings->mode == ERT_SINGLE_WARP ? ERT_PRELIMINARY : ERT_VOLATILE;
    mirror_same("the first offset", offset, settings->first.sys - settings->start);
}

static void grows_as_permitted(const Mirror *mirror, const ert_reading *reading, int64_t now) {
    int64_t grown = now - mirror->now, os = reading->mono > mirror->mono ? reading->mono - mirror->mono : 0;
    if (grown < 0) {
        mirror_fail("monotonic time falls", now, mirror->now);
    }
    if (mirror->settings.correction) {
        int64_t hundredth = os / 100 + 1;
        if (grown < os - hundredth || grown > os + hundredth) {
            mirror_fail("the time grows by another rate", grown, os);
        }
    } else if (grown != 0 && now != reading->sys - mirror->offset) {
        mirror_fail("the time without correction", now, reading->sys - mirror->offset);
    }
}

bool mirror_has_room(const Mirror *mirror) {
    for (uint32_t i = 0; i < PROCESSES; i++) {
        if (mirror->processes[i].last > MOST_MAILS - MOST_AT_ONCE) {
            return false;
        }
    }
    for (uint32_t i = 0; i < WHEELS; i++) {
        if (mirror->wheels[i].last == MOST_ASKED) {
            return false;
        }
    }
    return mirror->started < MOST_TIMERS;
}

void mirror_moved(Mirror *mirror, const ert_reading *reading, const ert_moved *moved, bool finalizes) {
    bool first = finalizes && mirror->state == ERT_PRELIMINARY;
    if (finalizes && !first) {
        mirror_same("a finalization that isn't the first moves nothing", moved->now, mirror->now);
        mirror_same("it sets no offset", moved->shifted, 0);
        return;
    }
    grows_as_permitted(mirror, reading, moved->now);
    if (moved->shifted) {
        if (!first && (finalizes || mirror->settings.mode != ERT_MULTI_WARP)) {
            mirror_fail("the offset moves in this mode", moved->shift, mirror->offset);
        }
        mirror_same("system time is that of the reading", moved->now + moved->shift, reading->sys);
        mirror->offset = moved->shift;
    }
    mirror->state = first ? ERT_FINAL : mirror->state;
    mirror->now = moved->now;
    mirror->mono = reading->mono > mirror->mono ? reading->mono : mirror->mono;
}

uint64_t mirror_down(const Mirror *mirror) {
    return (uint64_t)((mirror->now - mirror->settings.start) / MILLISECOND);
}

static int64_t up(const Mirror *mirror) {
    return (mirror->now - mirror->settings.start + MILLISECOND - 1) / MILLISECOND;
}

/* The deadline of a start, or -1 where no timer can be due then. */
static int64_t deadline_of(const Mirror *mirror, const ert_start *start) {
    int64_t at = start->when;
    if (start->absolute) {
        int64_t begin = mirror->settings.start / MILLISECOND; /* a multiple of a millisecond */
        at -= begin;
    } else if (start->when < 0) {
        return -1;
    } else {
        at += up(mirror);
    }
    return at < 0 || at > LATEST ? -1 : at;
}

uint32_t mirror_room(const Mirror *mirror, uint32_t sched) {
    uint32_t taken = 0;
    for (uint32_t i = 0; i < mirror->started; i++) {
        taken += mirror->timers[i].name.wheel == sched && mirror->timers[i].fate != GONE;
    }
    return mirror->settings.slots - taken;
}

bool mirror_may_miss(const Mirror *mirror, uint32_t sched) {
    uint32_t unseen = 0;
    for (uint32_t i = 0; i < mirror->started; i++) {
        const Timer *timer = &mirror->timers[i];
        bool last = timer->unseen && timer->name.wheel == sched;
        for (uint32_t j = i + 1; j < mirror->started && last; j++) {
            const ert_timer *later = &mirror->timers[j].name;
            last = later->wheel != sched || later->slot != timer->name.slot;
        }
        unseen += last;
    }
    return mirror->settings.looks < mirror->settings.slots && mirror_room(mirror, sched) <= unseen;
}

int32_t mirror_start(const Mirror *mirror, uint32_t sched, const ert_start *start) {
    if (sched >= mirror->settings.schedulers || start->dest >= mirror->settings.processes) {
        return ERT_RANGE;
    }
    if (deadline_of(mirror, start) < 0) {
        return ERT_BAD_TIME;
    }
    return mirror_room(mirror, sched) == 0 ? ERT_FULL : ERT_OK;
}

static bool is_same_name(const ert_timer *a, const ert_timer *b) {
    return a->wheel == b->wheel && a->slot == b->slot && a->generation == b->generation;
}

void mirror_started(Mirror *mirror, uint32_t sched, const ert_start *start, const ert_timer *name) {
    mirror_same("the wheel of a name", name->wheel, sched);
    for (uint32_t i = 0; i < mirror->started; i++) {
        const Timer *other = &mirror->timers[i];
        if (is_same_name(&other->name, name)) {
            mirror_fail("a name is given twice", (long long)name->generation, i);
        }
        if (other->name.wheel == sched && other->name.slot == name->slot && other->fate != GONE) {
            mirror_fail("a slot is taken twice", name->slot, i);
        }
    }
    Timer timer = {*name, (uint64_t)deadline_of(mirror, start), start->msg, start->dest, start->bare != 0, false, false, ARMED};
    timer.fate = mirror->processes[start->dest].exited ? GONE : ARMED;
    mirror->timers[mirror->started++] = timer;
}

/* The timer of a name that is armed, or NULL. */
static Timer *armed(const Mirror *mirror, const ert_timer *name) {
    for (uint32_t i = 0; i < mirror->started; i++) {
        if (is_same_name(&mirror->timers[i].name, name) && mirror->timers[i].fate == ARMED) {
            return (Timer *)&mirror->timers[i];
        }
    }
    return NULL;
}

int32_t mirror_read(const Mirror *mirror, const ert_timer *name, uint64_t *left) {
    const Timer *timer = armed(mirror, name);
    if (timer == NULL) {
        return ERT_NO_TIMER;
    }
    *left = timer->deadline > (uint64_t)up(mirror) ? timer->deadline - (uint64_t)up(mirror) : 0;
    return ERT_OK;
}

int32_t mirror_cancel(Mirror *mirror, const ert_timer *name, bool by_seat, uint64_t *left) {
    int32_t status = mirror_read(mirror, name, left);
    if (status == ERT_OK) {
        Timer *timer = armed(mirror, name);
        timer->fate = GONE;
        timer->by_seat = timer->unseen = by_seat;
    }
    return status;
}

int32_t mirror_restart(Mirror *mirror, const ert_timer *name, const ert_start *start) {
    uint64_t left;
    if (start->dest >= mirror->settings.processes) {
        return ERT_RANGE;
    }
    return deadline_of(mirror, start) < 0 ? ERT_BAD_TIME : mirror_cancel(mirror, name, false, &left);
}

uint64_t mirror_cancel_all(Mirror *mirror, uint32_t process) {
    uint64_t cancelled = 0;
    for (uint32_t i = 0; i < mirror->started; i++) {
        Timer *timer = &mirror->timers[i];
        if (timer->dest == process) {
            cancelled += timer->fate == ARMED;
            timer->fate = timer->fate == ARMED ? GONE : timer->fate;
            timer->by_seat = false;
        }
    }
    return cancelled;
}

uint32_t mirror_exit(Mirror *mirror, uint32_t process) {
    if (mirror->processes[process].exited) {
        return 0;
    }
    mirror->processes[process].exited = true;
    for (uint32_t i = 0; i < mirror->started; i++) {
        if (mirror->timers[i].dest == process && mirror->timers[i].fate == ARMED) {
            mirror->timers[i].fate = GONE;
        }
    }
    return 1;
}

static void put(Mirror *mirror, uint32_t process, ert_mail mail) {
    Process *to = &mirror->processes[process];
    if (to->last == MOST_MAILS) {
        mirror_fail("more messages than the mirror holds", to->last, MOST_MAILS);
    }
    to->mails[to->last++] = mail;
}

void mirror_ask(Mirror *mirror, const ert_request *request) {
    Wheel *wheel = &mirror->wheels[request->timer.wheel < mirror->settings.schedulers ? request->timer.wheel : 0];
    wheel->asked[wheel->last++] = *request;
}

uint32_t mirror_serve(Mirror *mirror, uint32_t sched) {
    Wheel *wheel = &mirror->wheels[sched];
    if (wheel->first == wheel->last) {
        return 0;
    }
    const ert_request *request = &wheel->asked[wheel->first++];
    uint64_t left = 0;
    bool cancels = request->kind == ERT_CANCEL;
    int32_t status = cancels ? mirror_cancel(mirror, &request->timer, false, &left) : mirror_read(mirror, &request->timer, &left);
    if (request->info) {
        ert_mail mail = {.tag = cancels ? ERT_CANCEL_DONE : ERT_READ_DONE, .timer = request->timer};
        mail.has_left = status == ERT_OK;
        mail.left = status == ERT_OK ? left : 0;
        put(mirror, request->reply_to, mail);
    }
    return 1;
}

/* The armed timer of a wheel that is due first, of equal deadlines the one that was started first; -1 for none. */
static int64_t next_of(const Mirror *mirror, uint32_t sched) {
    int64_t best = -1;
    for (uint32_t i = 0; i < mirror->started; i++) {
        const Timer *timer = &mirror->timers[i];
        if (timer->name.wheel == sched && timer->fate == ARMED && (best < 0 || timer->deadline < mirror->timers[best].deadline)) {
            best = i;
        }
    }
    return best;
}

ert_advanced mirror_advance(Mirror *mirror, uint32_t sched) {
    Wheel *wheel = &mirror->wheels[sched];
    ert_advanced advanced = {mirror_down(mirror), 0};
    int64_t next;
    while ((next = next_of(mirror, sched)) >= 0 && mirror->timers[next].deadline <= advanced.to) {
        mirror->timers[next].fate = EXPIRED;
        wheel->expired[wheel->waiting++] = (uint32_t)next;
        advanced.expired += 1;
    }
    for (uint32_t i = 0; i < mirror->started; i++) {
        Timer *timer = &mirror->timers[i];
        timer->by_seat = timer->by_seat && (timer->name.wheel != sched || timer->deadline > advanced.to);
    }
    wheel->advanced_to = advanced.to;
    wheel->was_advanced = true;
    return advanced;
}

ert_delivered mirror_deliver(Mirror *mirror, uint32_t sched) {
    Wheel *wheel = &mirror->wheels[sched];
    ert_delivered delivered = {0, 0};
    for (uint32_t i = 0; i < wheel->waiting; i++) {
        Timer *timer = &mirror->timers[wheel->expired[i]];
        timer->fate = GONE;
        if (mirror->processes[timer->dest].exited) {
            delivered.dropped += 1;
            continue;
        }
        ert_mail mail = {.tag = timer->bare ? ERT_BARE : ERT_TIMEOUT, .msg = timer->msg};
        if (!timer->bare) {
            mail.timer = timer->name;
        }
        put(mirror, timer->dest, mail);
        delivered.put += 1;
    }
    wheel->waiting = 0;
    return delivered;
}

ert_turned mirror_turn(Mirror *mirror, uint32_t sched) {
    ert_turned turned = {0, 0, 0, 0, 0};
    while (turned.served < 64 && mirror_serve(mirror, sched)) {
        turned.served += 1;
    }
    ert_advanced advanced = mirror_advance(mirror, sched);
    ert_delivered delivered = mirror_deliver(mirror, sched);
    turned.to = advanced.to;
    turned.expired = advanced.expired;
    turned.put = delivered.put;
    turned.dropped = delivered.dropped;
    return turned;
}

bool mirror_can_take(const Mirror *mirror, uint32_t process) {
    return !mirror->processes[process].exited && mirror->processes[process].first < mirror->processes[process].last;
}

int32_t mirror_take(Mirror *mirror, uint32_t process, ert_mail *mail) {
    Process *from = &mirror->processes[process];
    if (from->exited) {
        return ERT_EXITED;
    }
    if (from->first == from->last) {
        return ERT_EMPTY;
    }
    *mail = from->mails[from->first++];
    return ERT_OK;
}

int32_t mirror_demonitor(Mirror *mirror, uint32_t process, uint32_t number) {
    Process *of = &mirror->processes[process];
    for (uint32_t i = 0; i < of->standing; i++) {
        if (of->monitors[i].number == number) {
            memmove(&of->monitors[i], &of->monitors[i + 1], (of->standing - i - 1) * sizeof(Monitor));
            of->standing -= 1;
            return ERT_OK;
        }
    }
    return ERT_NO_MONITOR;
}

uint32_t mirror_notify(Mirror *mirror, uint32_t process) {
    Process *to = &mirror->processes[process];
    uint32_t told = 0;
    for (uint32_t i = 0; i < to->standing; i++) {
        if (to->monitors[i].offset != mirror->offset) {
            to->monitors[i].offset = mirror->offset;
            put(mirror, process, (ert_mail){.tag = ERT_CHANGE, .monitor = to->monitors[i].number, .offset = mirror->offset});
            told += 1;
        }
    }
    return told;
}

/* Whether the wheel may hold a row: of a timer that is armed, or that a seat cancelled since the last advance past it. */
static bool may_hold(const Timer *timer, uint32_t sched) {
    return timer->name.wheel == sched && (timer->fate == ARMED || timer->by_seat);
}

void mirror_next_due(const Mirror *mirror, uint32_t sched, int32_t status, uint64_t due) {
    const Wheel *wheel = &mirror->wheels[sched];
    bool held = false, is_deadline = false;
    for (uint32_t i = 0; i < mirror->started; i++) {
        const Timer *timer = &mirror->timers[i];
        bool here = may_hold(timer, sched);
        held = held || here;
        is_deadline = is_deadline || (here && timer->deadline == due);
    }
    int64_t next = next_of(mirror, sched);
    if (status == ERT_EMPTY) {
        mirror_same("an armed timer is missed", next, -1);
        return;
    }
    mirror_same("the status of next_due", status, ERT_OK);
    if (!held) {
        mirror_fail("next_due of an empty wheel", (long long)due, -1);
    }
    if (next >= 0 && mirror->timers[next].deadline < due) {
        mirror_fail("next_due is too late", (long long)due, (long long)mirror->timers[next].deadline);
    }
    if (next < 0 && !(wheel->was_advanced && due <= wheel->advanced_to)) {
        mirror_fail("next_due of timers that seats cancelled", (long long)due, -1);
    }
    if (wheel->was_advanced && due <= wheel->advanced_to && !is_deadline) {
        mirror_fail("next_due has passed, and is no deadline", (long long)due, (long long)wheel->advanced_to);
    }
}

uint64_t mirror_drop_settled(Mirror *mirror, uint32_t sched) {
    uint64_t armed = 0;
    for (uint32_t i = 0; i < mirror->started; i++) {
        Timer *timer = &mirror->timers[i];
        if (timer->name.wheel == sched) {
            timer->by_seat = false;
            armed += timer->fate == ARMED;
        }
    }
    return armed;
}
