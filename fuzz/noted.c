/* The calls of a log, and their lines, which the head of tools/ordering/log.py describes. */
#include "noted.h"

#include <inttypes.h>
#include <stdio.h>
#include <stdlib.h>

int32_t call_hub(ert_hub *hub, call *c) {
    switch (c->kind) {
    case TICK: return ert_hub_tick(hub, &c->reading, c->force, &c->moved);
    case FINALIZE: return ert_hub_finalize(hub, &c->reading, &c->told, &c->moved);
    case TIME: return ert_hub_monotonic_time(hub, &c->time);
    case SYSTEM: return ert_hub_system_time(hub, &c->time);
    case OFFSET: return ert_hub_time_offset(hub, &c->offset);
    case CANCEL: return ert_hub_cancel(hub, &c->timer, &c->left);
    default: return ert_hub_read(hub, &c->timer, &c->left);
    }
}

int32_t call_seat(ert_seat *seat, call *c) {
    switch (c->kind) {
    case TIME: return ert_seat_monotonic_time(seat, &c->time);
    case SYSTEM: return ert_seat_system_time(seat, &c->time);
    case OFFSET: return ert_seat_time_offset(seat, &c->offset);
    case CANCEL: return ert_seat_cancel(seat, &c->timer, &c->left);
    case READ: return ert_seat_read(seat, &c->timer, &c->left);
    default: return ert_seat_is_alive(seat, c->process, &c->told);
    }
}

static int32_t advance(ert_shard *shard, call *c) {
    ert_advanced advanced = {0, 0};
    int32_t status = ert_shard_advance(shard, &advanced);
    c->turned.to = advanced.to;
    c->turned.expired = advanced.expired;
    return status;
}

static int32_t deliver(ert_shard *shard, call *c) {
    ert_delivered delivered = {0, 0};
    int32_t status = ert_shard_deliver(shard, &delivered);
    c->turned.put = delivered.put;
    c->turned.dropped = delivered.dropped;
    return status;
}

static int32_t restart(ert_shard *shard, call *c) {
    c->restarted = c->timer;
    return ert_shard_restart(shard, &c->restarted, &c->start);
}

int32_t call_shard(ert_shard *shard, call *c) {
    switch (c->kind) {
    case TIME: return ert_shard_monotonic_time(shard, &c->time);
    case SYSTEM: return ert_shard_system_time(shard, &c->time);
    case OFFSET: return ert_shard_time_offset(shard, &c->offset);
    case START: return ert_shard_start(shard, &c->start, &c->timer);
    case RESTART: return restart(shard, c);
    case CANCEL: return ert_shard_cancel(shard, &c->timer, &c->left);
    case READ: return ert_shard_read(shard, &c->timer, &c->left);
    case ALIVE: return ert_shard_is_alive(shard, c->process, &c->told);
    case EXIT: return ert_shard_exit(shard, c->process, &c->told);
    case TAKE: return ert_shard_take(shard, c->process, c->mails);
    case TAKE_SOME: return ert_shard_take_some(shard, c->process, c->mails, c->room, &c->taken);
    case NEXT_MAIL: return ert_shard_next_mail(shard, &c->told);
    case ASK: return ert_shard_ask(shard, &c->request);
    case SERVE: return ert_shard_serve(shard, &c->told);
    case MONITOR: return ert_shard_monitor(shard, c->process, &c->told);
    case DEMONITOR: return ert_shard_demonitor(shard, c->process, c->monitor);
    case NOTIFY: return ert_shard_notify(shard, c->process, &c->told);
    case ADVANCE: return advance(shard, c);
    case DELIVER: return deliver(shard, c);
    default: return ert_shard_turn(shard, &c->turned);
    }
}

static const char *truth(uint32_t it) {
    return it ? "true" : "false";
}

static const char *state_word(uint32_t state) {
    return state == ERT_FINAL ? "final" : state == ERT_VOLATILE ? "volatile" : "preliminary";
}

void write_settings(const ert_settings *settings) {
    static const char *const modes[] = {"no", "single", "multi"};
    printf("settings %s %s %" PRId64 " %" PRIu32 " %" PRIu32 " %" PRIu32 " %" PRIu32 " %" PRId64 " %" PRId64 "\n",
        modes[settings->mode], truth(settings->correction), settings->start, settings->schedulers, settings->processes,
        settings->slots, settings->callers, settings->first.mono, settings->first.sys);
}

static void write_timer(const ert_timer *timer) {
    printf(" %" PRIu32 " %" PRIu32 " %" PRIu64, timer->wheel, timer->slot, timer->generation);
}

static void write_reading(const ert_reading *reading) {
    printf(" %" PRId64 " %" PRId64, reading->mono, reading->sys);
}

/* What a call that was refused answers. */
static const char *refusal(int32_t status) {
    switch (status) {
    case ERT_BAD_READING: return "bad_reading";
    case ERT_OFFSET_WIDE: return "offset_wide";
    case ERT_BAD_TIME: return "bad_time";
    case ERT_FULL: return "full";
    case ERT_NO_TIMER:
    case ERT_NO_MONITOR: return "none";
    case ERT_EMPTY: return "empty";
    case ERT_EXITED: return "exited";
    default: fprintf(stderr, "a call answers %s\n", ert_status_text(status)); exit(EXIT_FAILURE);
    }
}

static void write_moved(const ert_moved *moved) {
    printf(" %" PRId64, moved->now);
    if (moved->shifted) {
        printf(" %" PRId64, moved->shift);
    } else {
        printf(" none");
    }
}

/* The answer to a request for this. */
static void write_done(const char *asked, const ert_mail *mail) {
    printf(" %s_done", asked);
    write_timer(&mail->timer);
    if (mail->has_left) {
        printf(" %" PRIu64, mail->left);
    } else {
        printf(" none");
    }
}

static void write_mail(const ert_mail *mail) {
    switch (mail->tag) {
    case ERT_TIMEOUT:
        printf(" timeout");
        write_timer(&mail->timer);
        printf(" %" PRIu64, mail->msg);
        break;
    case ERT_BARE: printf(" bare %" PRIu64, mail->msg); break;
    case ERT_CANCEL_DONE: write_done("cancel", mail); break;
    case ERT_READ_DONE: write_done("read", mail); break;
    case ERT_CHANGE: printf(" change %" PRIu32 " %" PRId64, mail->monitor, mail->offset); break;
    default: fprintf(stderr, "a message of a kind that nobody sent: %" PRIu32 "\n", mail->tag); exit(EXIT_FAILURE);
    }
}

static void write_start(const ert_start *start) {
    printf(" %s %" PRId64 " %" PRIu32 " %" PRIu64 " %s", start->absolute ? "at" : "after", start->when, start->dest, start->msg,
        start->bare ? "bare" : "wrapped");
}

static void write_request(const ert_request *request) {
    printf(" %s", request->kind == ERT_CANCEL ? "cancel" : "read");
    write_timer(&request->timer);
    printf(" %" PRIu32 " %s", request->reply_to, truth(request->info));
}

static void write_asked(const call *c) {
    switch (c->kind) {
    case TICK:
        printf("tick");
        write_reading(&c->reading);
        printf(" %s", c->force ? "force" : "plain");
        break;
    case FINALIZE:
        printf("finalize");
        write_reading(&c->reading);
        break;
    case TIME: printf("time"); break;
    case SYSTEM: printf("system"); break;
    case OFFSET: printf("offset"); break;
    case START:
        printf("start");
        write_start(&c->start);
        break;
    case RESTART:
        printf("restart");
        write_timer(&c->timer);
        write_start(&c->start);
        break;
    case CANCEL:
    case READ:
        printf(c->kind == CANCEL ? "cancel" : "read");
        write_timer(&c->timer);
        break;
    case ALIVE: printf("alive %" PRIu32, c->process); break;
    case EXIT: printf("exit %" PRIu32, c->process); break;
    case TAKE: printf("take %" PRIu32, c->process); break;
    case TAKE_SOME: printf("take_some %" PRIu32 " %zu", c->process, c->room); break;
    case NEXT_MAIL: printf("next_mail"); break;
    case ASK:
        printf("ask");
        write_request(&c->request);
        break;
    case SERVE: printf("serve"); break;
    case MONITOR: printf("monitor %" PRIu32, c->process); break;
    case DEMONITOR: printf("demonitor %" PRIu32 " %" PRIu32, c->process, c->monitor); break;
    case NOTIFY: printf("notify %" PRIu32, c->process); break;
    case ADVANCE: printf("advance"); break;
    case DELIVER: printf("deliver"); break;
    case TURN: printf("turn"); break;
    }
}

static void write_answer(const call *c) {
    const ert_turned *turned = &c->turned;
    switch (c->kind) {
    case TICK: write_moved(&c->moved); break;
    case FINALIZE:
        printf(" %s", state_word(c->told));
        write_moved(&c->moved);
        break;
    case TIME:
    case SYSTEM: printf(" %" PRId64, c->time); break;
    case OFFSET: printf(" %" PRId64 " %s", c->offset.offset, state_word(c->offset.state)); break;
    case START: write_timer(&c->timer); break;
    case RESTART: write_timer(&c->restarted); break;
    case CANCEL:
    case READ: printf(" %" PRIu64, c->left); break;
    case ALIVE:
    case EXIT: printf(" %s", truth(c->told)); break;
    case TAKE: write_mail(c->mails); break;
    case TAKE_SOME: printf(" most"); break;
    case ASK:
    case DEMONITOR: printf(" done"); break;
    case NEXT_MAIL:
    case SERVE:
    case MONITOR:
    case NOTIFY: printf(" %" PRIu32, c->told); break;
    case ADVANCE: printf(" %" PRIu64 " %" PRIu32, turned->to, turned->expired); break;
    case DELIVER: printf(" %" PRIu32 " %" PRIu32, turned->put, turned->dropped); break;
    case TURN:
        printf(" %" PRIu32 " %" PRIu64 " %" PRIu32 " %" PRIu32 " %" PRIu32, turned->served, turned->to, turned->expired,
            turned->put, turned->dropped);
        break;
    }
}

void write_call(uint32_t caller, const call *c) {
    printf("c%" PRIu32 " %" PRIu64 " %" PRIu64 " ", caller, c->begin, c->end);
    write_asked(c);
    printf(" =");
    if (c->status == ERT_OK) {
        write_answer(c);
    } else {
        printf(" %s", refusal(c->status));
    }
    /* Whatever the status says of how it ended. */
    for (size_t i = 0; c->kind == TAKE_SOME && i < c->taken; i++) {
        write_mail(&c->mails[i]);
    }
    printf("\n");
}
