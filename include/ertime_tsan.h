/*
 * ertime under ThreadSanitizer. ertime.h includes this file if a program is compiled with -fsanitize=thread; no program
 * includes it itself. packaging/tsan writes it, from the prototypes of ertime.h.
 *
 * The library is not instrumented, so the sanitizer sees neither what its calls write nor how they order threads. Each
 * call has a wrapper here. It touches a byte of its handle: two threads that use one handle at the same time are
 * reported as a data race. And it tells of the order that the calls give: what a thread did before a tick, a turn or a
 * cancel was done before another thread is told of it, by the time, by the status of a cancel or a read of the same
 * timer, or by a message. So a program that hands data over in this way is not reported. All other orders are the
 * program's own.
 *
 * Calls on two timers share one of 1,024 places where their names fall together, and ticks and turns of all worlds one
 * each. So the sanitizer may believe an order that is not there, and miss a race in the program's own data. The address
 * of a function, as `&ert_world_tick`, is that of the call without a wrapper.
 */
#ifndef ERTIME_TSAN_H
#define ERTIME_TSAN_H

#include <sanitizer/tsan_interface.h>

/* Places that stand for what the calls order; all parts of a program have the same. */
__attribute__((weak)) char ert_tsan_ticks_;
__attribute__((weak)) char ert_tsan_turns_;
__attribute__((weak)) char ert_tsan_timers_[1024];

/* The place of a timer. */
static inline char *ert_tsan_timer_(const ert_timer *timer) {
    return &ert_tsan_timers_[(timer->slot * 31u + timer->wheel * 7u + (uint32_t)timer->generation) % 1024u];
}

/* Writes a byte of a handle as it is. */
#define ERT_TSAN_TOUCH_(handle) ((void)(*(volatile bool *)&(handle)->live_ = *(volatile bool *)&(handle)->live_))

static inline int32_t ert_world_open_tsan_(ert_world *world, const ert_settings *settings) {
    int32_t status;
    ERT_TSAN_TOUCH_(world);
    status = ert_world_open(world, settings);
    return status;
}
#define ert_world_open(world, settings) ert_world_open_tsan_(world, settings)

static inline int32_t ert_world_close_tsan_(ert_world *world) {
    int32_t status;
    ERT_TSAN_TOUCH_(world);
    status = ert_world_close(world);
    return status;
}
#define ert_world_close(world) ert_world_close_tsan_(world)

static inline int32_t ert_world_tick_tsan_(ert_world *world, const ert_reading *reading, uint32_t force,
    ert_moved *moved) {
    int32_t status;
    ERT_TSAN_TOUCH_(world);
    __tsan_release(&ert_tsan_ticks_);
    status = ert_world_tick(world, reading, force, moved);
    __tsan_acquire(&ert_tsan_ticks_);
    return status;
}
#define ert_world_tick(world, reading, force, moved) ert_world_tick_tsan_(world, reading, force, moved)

static inline int32_t ert_world_finalize_tsan_(ert_world *world, const ert_reading *reading, uint32_t *before,
    ert_moved *moved) {
    int32_t status;
    ERT_TSAN_TOUCH_(world);
    __tsan_release(&ert_tsan_ticks_);
    status = ert_world_finalize(world, reading, before, moved);
    __tsan_acquire(&ert_tsan_ticks_);
    return status;
}
#define ert_world_finalize(world, reading, before, moved) ert_world_finalize_tsan_(world, reading, before, moved)

static inline int32_t ert_world_monotonic_time_tsan_(ert_world *world, int64_t *time) {
    int32_t status;
    ERT_TSAN_TOUCH_(world);
    status = ert_world_monotonic_time(world, time);
    __tsan_acquire(&ert_tsan_ticks_);
    return status;
}
#define ert_world_monotonic_time(world, time) ert_world_monotonic_time_tsan_(world, time)

static inline int32_t ert_world_system_time_tsan_(ert_world *world, int64_t *time) {
    int32_t status;
    ERT_TSAN_TOUCH_(world);
    status = ert_world_system_time(world, time);
    __tsan_acquire(&ert_tsan_ticks_);
    return status;
}
#define ert_world_system_time(world, time) ert_world_system_time_tsan_(world, time)

static inline int32_t ert_world_time_offset_tsan_(ert_world *world, ert_offset *offset) {
    int32_t status;
    ERT_TSAN_TOUCH_(world);
    status = ert_world_time_offset(world, offset);
    __tsan_acquire(&ert_tsan_ticks_);
    return status;
}
#define ert_world_time_offset(world, offset) ert_world_time_offset_tsan_(world, offset)

static inline int32_t ert_world_start_tsan_(ert_world *world, uint32_t scheduler, const ert_start *start,
    ert_timer *timer) {
    int32_t status;
    ERT_TSAN_TOUCH_(world);
    status = ert_world_start(world, scheduler, start, timer);
    __tsan_acquire(&ert_tsan_ticks_);
    return status;
}
#define ert_world_start(world, scheduler, start, timer) ert_world_start_tsan_(world, scheduler, start, timer)

static inline int32_t ert_world_ready_tsan_(ert_world *world, uint32_t scheduler, uint32_t *room, uint64_t *ready) {
    int32_t status;
    ERT_TSAN_TOUCH_(world);
    status = ert_world_ready(world, scheduler, room, ready);
    return status;
}
#define ert_world_ready(world, scheduler, room, ready) ert_world_ready_tsan_(world, scheduler, room, ready)

static inline int32_t ert_world_cancel_tsan_(ert_world *world, const ert_timer *timer, uint64_t *left) {
    int32_t status;
    char *const at = ert_tsan_timer_(timer);
    ERT_TSAN_TOUCH_(world);
    __tsan_release(at);
    status = ert_world_cancel(world, timer, left);
    __tsan_acquire(at);
    __tsan_acquire(&ert_tsan_turns_);
    return status;
}
#define ert_world_cancel(world, timer, left) ert_world_cancel_tsan_(world, timer, left)

static inline int32_t ert_world_restart_tsan_(ert_world *world, ert_timer *timer, const ert_start *start) {
    int32_t status;
    char *const at = ert_tsan_timer_(timer);
    ERT_TSAN_TOUCH_(world);
    __tsan_release(at);
    status = ert_world_restart(world, timer, start);
    __tsan_acquire(at);
    __tsan_acquire(&ert_tsan_turns_);
    return status;
}
#define ert_world_restart(world, timer, start) ert_world_restart_tsan_(world, timer, start)

static inline int32_t ert_world_read_tsan_(ert_world *world, const ert_timer *timer, uint64_t *left) {
    int32_t status;
    char *const at = ert_tsan_timer_(timer);
    ERT_TSAN_TOUCH_(world);
    status = ert_world_read(world, timer, left);
    __tsan_acquire(at);
    __tsan_acquire(&ert_tsan_turns_);
    return status;
}
#define ert_world_read(world, timer, left) ert_world_read_tsan_(world, timer, left)

static inline int32_t ert_world_held_tsan_(ert_world *world, uint32_t scheduler, uint64_t *held) {
    int32_t status;
    ERT_TSAN_TOUCH_(world);
    status = ert_world_held(world, scheduler, held);
    return status;
}
#define ert_world_held(world, scheduler, held) ert_world_held_tsan_(world, scheduler, held)

static inline int32_t ert_world_expired_tsan_(ert_world *world, uint32_t scheduler, uint64_t *expired) {
    int32_t status;
    ERT_TSAN_TOUCH_(world);
    status = ert_world_expired(world, scheduler, expired);
    return status;
}
#define ert_world_expired(world, scheduler, expired) ert_world_expired_tsan_(world, scheduler, expired)

static inline int32_t ert_world_mail_count_tsan_(ert_world *world, uint32_t process, uint64_t *count) {
    int32_t status;
    ERT_TSAN_TOUCH_(world);
    status = ert_world_mail_count(world, process, count);
    return status;
}
#define ert_world_mail_count(world, process, count) ert_world_mail_count_tsan_(world, process, count)

static inline int32_t ert_world_is_alive_tsan_(ert_world *world, uint32_t process, uint32_t *alive) {
    int32_t status;
    ERT_TSAN_TOUCH_(world);
    status = ert_world_is_alive(world, process, alive);
    __tsan_acquire(&ert_tsan_turns_);
    return status;
}
#define ert_world_is_alive(world, process, alive) ert_world_is_alive_tsan_(world, process, alive)

static inline int32_t ert_world_exit_tsan_(ert_world *world, uint32_t process, uint32_t *first) {
    int32_t status;
    ERT_TSAN_TOUCH_(world);
    __tsan_release(&ert_tsan_turns_);
    status = ert_world_exit(world, process, first);
    __tsan_acquire(&ert_tsan_turns_);
    return status;
}
#define ert_world_exit(world, process, first) ert_world_exit_tsan_(world, process, first)

static inline int32_t ert_world_cancel_all_tsan_(ert_world *world, uint32_t process, uint64_t *cancelled) {
    int32_t status;
    ERT_TSAN_TOUCH_(world);
    __tsan_release(&ert_tsan_turns_);
    status = ert_world_cancel_all(world, process, cancelled);
    __tsan_acquire(&ert_tsan_turns_);
    return status;
}
#define ert_world_cancel_all(world, process, cancelled) ert_world_cancel_all_tsan_(world, process, cancelled)

static inline int32_t ert_world_ask_tsan_(ert_world *world, const ert_request *request) {
    int32_t status;
    ERT_TSAN_TOUCH_(world);
    status = ert_world_ask(world, request);
    return status;
}
#define ert_world_ask(world, request) ert_world_ask_tsan_(world, request)

static inline int32_t ert_world_take_tsan_(ert_world *world, uint32_t process, ert_mail *mail) {
    int32_t status;
    ERT_TSAN_TOUCH_(world);
    status = ert_world_take(world, process, mail);
    __tsan_acquire(&ert_tsan_turns_);
    return status;
}
#define ert_world_take(world, process, mail) ert_world_take_tsan_(world, process, mail)

static inline int32_t ert_world_take_some_tsan_(ert_world *world, uint32_t process, ert_mail *mails, size_t room,
    size_t *count) {
    int32_t status;
    ERT_TSAN_TOUCH_(world);
    status = ert_world_take_some(world, process, mails, room, count);
    __tsan_acquire(&ert_tsan_turns_);
    return status;
}
#define ert_world_take_some(world, process, mails, room, count) ert_world_take_some_tsan_(world, process, mails, room, \
    count)

static inline int32_t ert_world_next_mail_tsan_(ert_world *world, uint32_t *process) {
    int32_t status;
    ERT_TSAN_TOUCH_(world);
    status = ert_world_next_mail(world, process);
    return status;
}
#define ert_world_next_mail(world, process) ert_world_next_mail_tsan_(world, process)

static inline int32_t ert_world_reserve_mail_tsan_(ert_world *world, uint32_t process, size_t count) {
    int32_t status;
    ERT_TSAN_TOUCH_(world);
    status = ert_world_reserve_mail(world, process, count);
    return status;
}
#define ert_world_reserve_mail(world, process, count) ert_world_reserve_mail_tsan_(world, process, count)

static inline int32_t ert_world_shrink_mail_tsan_(ert_world *world, uint32_t process) {
    int32_t status;
    ERT_TSAN_TOUCH_(world);
    status = ert_world_shrink_mail(world, process);
    return status;
}
#define ert_world_shrink_mail(world, process) ert_world_shrink_mail_tsan_(world, process)

static inline int32_t ert_world_monitor_tsan_(ert_world *world, uint32_t process, uint32_t *monitor) {
    int32_t status;
    ERT_TSAN_TOUCH_(world);
    status = ert_world_monitor(world, process, monitor);
    return status;
}
#define ert_world_monitor(world, process, monitor) ert_world_monitor_tsan_(world, process, monitor)

static inline int32_t ert_world_demonitor_tsan_(ert_world *world, uint32_t process, uint32_t monitor) {
    int32_t status;
    ERT_TSAN_TOUCH_(world);
    status = ert_world_demonitor(world, process, monitor);
    return status;
}
#define ert_world_demonitor(world, process, monitor) ert_world_demonitor_tsan_(world, process, monitor)

static inline int32_t ert_world_notify_tsan_(ert_world *world, uint32_t process, uint32_t *sent) {
    int32_t status;
    ERT_TSAN_TOUCH_(world);
    status = ert_world_notify(world, process, sent);
    return status;
}
#define ert_world_notify(world, process, sent) ert_world_notify_tsan_(world, process, sent)

static inline int32_t ert_world_serve_tsan_(ert_world *world, uint32_t scheduler, uint32_t *served) {
    int32_t status;
    ERT_TSAN_TOUCH_(world);
    status = ert_world_serve(world, scheduler, served);
    return status;
}
#define ert_world_serve(world, scheduler, served) ert_world_serve_tsan_(world, scheduler, served)

static inline int32_t ert_world_advance_tsan_(ert_world *world, uint32_t scheduler, ert_advanced *advanced) {
    int32_t status;
    ERT_TSAN_TOUCH_(world);
    __tsan_release(&ert_tsan_turns_);
    status = ert_world_advance(world, scheduler, advanced);
    __tsan_acquire(&ert_tsan_ticks_);
    __tsan_acquire(&ert_tsan_turns_);
    return status;
}
#define ert_world_advance(world, scheduler, advanced) ert_world_advance_tsan_(world, scheduler, advanced)

static inline int32_t ert_world_deliver_tsan_(ert_world *world, uint32_t scheduler, ert_delivered *delivered) {
    int32_t status;
    ERT_TSAN_TOUCH_(world);
    __tsan_release(&ert_tsan_turns_);
    status = ert_world_deliver(world, scheduler, delivered);
    __tsan_acquire(&ert_tsan_turns_);
    return status;
}
#define ert_world_deliver(world, scheduler, delivered) ert_world_deliver_tsan_(world, scheduler, delivered)

static inline int32_t ert_world_turn_tsan_(ert_world *world, uint32_t scheduler, ert_turned *turned) {
    int32_t status;
    ERT_TSAN_TOUCH_(world);
    __tsan_release(&ert_tsan_turns_);
    status = ert_world_turn(world, scheduler, turned);
    __tsan_acquire(&ert_tsan_ticks_);
    __tsan_acquire(&ert_tsan_turns_);
    return status;
}
#define ert_world_turn(world, scheduler, turned) ert_world_turn_tsan_(world, scheduler, turned)

static inline int32_t ert_world_turn_some_tsan_(ert_world *world, uint32_t scheduler, uint32_t most,
    ert_turned_some *turned) {
    int32_t status;
    ERT_TSAN_TOUCH_(world);
    __tsan_release(&ert_tsan_turns_);
    status = ert_world_turn_some(world, scheduler, most, turned);
    __tsan_acquire(&ert_tsan_ticks_);
    __tsan_acquire(&ert_tsan_turns_);
    return status;
}
#define ert_world_turn_some(world, scheduler, most, turned) ert_world_turn_some_tsan_(world, scheduler, most, turned)

static inline int32_t ert_world_next_due_tsan_(ert_world *world, uint32_t scheduler, uint64_t *due) {
    int32_t status;
    ERT_TSAN_TOUCH_(world);
    status = ert_world_next_due(world, scheduler, due);
    return status;
}
#define ert_world_next_due(world, scheduler, due) ert_world_next_due_tsan_(world, scheduler, due)

static inline int32_t ert_world_drop_settled_tsan_(ert_world *world, uint32_t scheduler, uint64_t *dropped) {
    int32_t status;
    ERT_TSAN_TOUCH_(world);
    status = ert_world_drop_settled(world, scheduler, dropped);
    return status;
}
#define ert_world_drop_settled(world, scheduler, dropped) ert_world_drop_settled_tsan_(world, scheduler, dropped)

static inline int32_t ert_world_reserve_expired_tsan_(ert_world *world, uint32_t scheduler, size_t count) {
    int32_t status;
    ERT_TSAN_TOUCH_(world);
    status = ert_world_reserve_expired(world, scheduler, count);
    return status;
}
#define ert_world_reserve_expired(world, scheduler, count) ert_world_reserve_expired_tsan_(world, scheduler, count)

static inline int32_t ert_world_shrink_expired_tsan_(ert_world *world, uint32_t scheduler) {
    int32_t status;
    ERT_TSAN_TOUCH_(world);
    status = ert_world_shrink_expired(world, scheduler);
    return status;
}
#define ert_world_shrink_expired(world, scheduler) ert_world_shrink_expired_tsan_(world, scheduler)

static inline int32_t ert_seat_open_tsan_(ert_seat *seat, ert_world *world) {
    int32_t status;
    ERT_TSAN_TOUCH_(seat);
    status = ert_seat_open(seat, world);
    return status;
}
#define ert_seat_open(seat, world) ert_seat_open_tsan_(seat, world)

static inline int32_t ert_seat_close_tsan_(ert_seat *seat) {
    int32_t status;
    ERT_TSAN_TOUCH_(seat);
    status = ert_seat_close(seat);
    return status;
}
#define ert_seat_close(seat) ert_seat_close_tsan_(seat)

static inline int32_t ert_seat_monotonic_time_tsan_(ert_seat *seat, int64_t *time) {
    int32_t status;
    ERT_TSAN_TOUCH_(seat);
    status = ert_seat_monotonic_time(seat, time);
    __tsan_acquire(&ert_tsan_ticks_);
    return status;
}
#define ert_seat_monotonic_time(seat, time) ert_seat_monotonic_time_tsan_(seat, time)

static inline int32_t ert_seat_system_time_tsan_(ert_seat *seat, int64_t *time) {
    int32_t status;
    ERT_TSAN_TOUCH_(seat);
    status = ert_seat_system_time(seat, time);
    __tsan_acquire(&ert_tsan_ticks_);
    return status;
}
#define ert_seat_system_time(seat, time) ert_seat_system_time_tsan_(seat, time)

static inline int32_t ert_seat_time_offset_tsan_(ert_seat *seat, ert_offset *offset) {
    int32_t status;
    ERT_TSAN_TOUCH_(seat);
    status = ert_seat_time_offset(seat, offset);
    __tsan_acquire(&ert_tsan_ticks_);
    return status;
}
#define ert_seat_time_offset(seat, offset) ert_seat_time_offset_tsan_(seat, offset)

static inline int32_t ert_seat_cancel_tsan_(ert_seat *seat, const ert_timer *timer, uint64_t *left) {
    int32_t status;
    char *const at = ert_tsan_timer_(timer);
    ERT_TSAN_TOUCH_(seat);
    __tsan_release(at);
    status = ert_seat_cancel(seat, timer, left);
    __tsan_acquire(at);
    __tsan_acquire(&ert_tsan_turns_);
    return status;
}
#define ert_seat_cancel(seat, timer, left) ert_seat_cancel_tsan_(seat, timer, left)

static inline int32_t ert_seat_read_tsan_(ert_seat *seat, const ert_timer *timer, uint64_t *left) {
    int32_t status;
    char *const at = ert_tsan_timer_(timer);
    ERT_TSAN_TOUCH_(seat);
    status = ert_seat_read(seat, timer, left);
    __tsan_acquire(at);
    __tsan_acquire(&ert_tsan_turns_);
    return status;
}
#define ert_seat_read(seat, timer, left) ert_seat_read_tsan_(seat, timer, left)

static inline int32_t ert_seat_is_alive_tsan_(ert_seat *seat, uint32_t process, uint32_t *alive) {
    int32_t status;
    ERT_TSAN_TOUCH_(seat);
    status = ert_seat_is_alive(seat, process, alive);
    __tsan_acquire(&ert_tsan_turns_);
    return status;
}
#define ert_seat_is_alive(seat, process, alive) ert_seat_is_alive_tsan_(seat, process, alive)

static inline int32_t ert_hub_open_tsan_(ert_hub *hub, const ert_settings *settings) {
    int32_t status;
    ERT_TSAN_TOUCH_(hub);
    status = ert_hub_open(hub, settings);
    return status;
}
#define ert_hub_open(hub, settings) ert_hub_open_tsan_(hub, settings)

static inline int32_t ert_hub_close_tsan_(ert_hub *hub) {
    int32_t status;
    ERT_TSAN_TOUCH_(hub);
    status = ert_hub_close(hub);
    return status;
}
#define ert_hub_close(hub) ert_hub_close_tsan_(hub)

static inline int32_t ert_hub_seat_tsan_(ert_hub *hub, ert_seat *seat) {
    int32_t status;
    ERT_TSAN_TOUCH_(hub);
    status = ert_hub_seat(hub, seat);
    return status;
}
#define ert_hub_seat(hub, seat) ert_hub_seat_tsan_(hub, seat)

static inline int32_t ert_hub_shard_tsan_(ert_hub *hub, ert_shard *shard, uint32_t processes) {
    int32_t status;
    ERT_TSAN_TOUCH_(hub);
    status = ert_hub_shard(hub, shard, processes);
    return status;
}
#define ert_hub_shard(hub, shard, processes) ert_hub_shard_tsan_(hub, shard, processes)

static inline int32_t ert_hub_tick_tsan_(ert_hub *hub, const ert_reading *reading, uint32_t force, ert_moved *moved) {
    int32_t status;
    ERT_TSAN_TOUCH_(hub);
    __tsan_release(&ert_tsan_ticks_);
    status = ert_hub_tick(hub, reading, force, moved);
    __tsan_acquire(&ert_tsan_ticks_);
    return status;
}
#define ert_hub_tick(hub, reading, force, moved) ert_hub_tick_tsan_(hub, reading, force, moved)

static inline int32_t ert_hub_finalize_tsan_(ert_hub *hub, const ert_reading *reading, uint32_t *before,
    ert_moved *moved) {
    int32_t status;
    ERT_TSAN_TOUCH_(hub);
    __tsan_release(&ert_tsan_ticks_);
    status = ert_hub_finalize(hub, reading, before, moved);
    __tsan_acquire(&ert_tsan_ticks_);
    return status;
}
#define ert_hub_finalize(hub, reading, before, moved) ert_hub_finalize_tsan_(hub, reading, before, moved)

static inline int32_t ert_hub_monotonic_time_tsan_(ert_hub *hub, int64_t *time) {
    int32_t status;
    ERT_TSAN_TOUCH_(hub);
    status = ert_hub_monotonic_time(hub, time);
    __tsan_acquire(&ert_tsan_ticks_);
    return status;
}
#define ert_hub_monotonic_time(hub, time) ert_hub_monotonic_time_tsan_(hub, time)

static inline int32_t ert_hub_system_time_tsan_(ert_hub *hub, int64_t *time) {
    int32_t status;
    ERT_TSAN_TOUCH_(hub);
    status = ert_hub_system_time(hub, time);
    __tsan_acquire(&ert_tsan_ticks_);
    return status;
}
#define ert_hub_system_time(hub, time) ert_hub_system_time_tsan_(hub, time)

static inline int32_t ert_hub_time_offset_tsan_(ert_hub *hub, ert_offset *offset) {
    int32_t status;
    ERT_TSAN_TOUCH_(hub);
    status = ert_hub_time_offset(hub, offset);
    __tsan_acquire(&ert_tsan_ticks_);
    return status;
}
#define ert_hub_time_offset(hub, offset) ert_hub_time_offset_tsan_(hub, offset)

static inline int32_t ert_hub_cancel_tsan_(ert_hub *hub, const ert_timer *timer, uint64_t *left) {
    int32_t status;
    char *const at = ert_tsan_timer_(timer);
    ERT_TSAN_TOUCH_(hub);
    __tsan_release(at);
    status = ert_hub_cancel(hub, timer, left);
    __tsan_acquire(at);
    __tsan_acquire(&ert_tsan_turns_);
    return status;
}
#define ert_hub_cancel(hub, timer, left) ert_hub_cancel_tsan_(hub, timer, left)

static inline int32_t ert_hub_read_tsan_(ert_hub *hub, const ert_timer *timer, uint64_t *left) {
    int32_t status;
    char *const at = ert_tsan_timer_(timer);
    ERT_TSAN_TOUCH_(hub);
    status = ert_hub_read(hub, timer, left);
    __tsan_acquire(at);
    __tsan_acquire(&ert_tsan_turns_);
    return status;
}
#define ert_hub_read(hub, timer, left) ert_hub_read_tsan_(hub, timer, left)

static inline int32_t ert_shard_close_tsan_(ert_shard *shard) {
    int32_t status;
    ERT_TSAN_TOUCH_(shard);
    status = ert_shard_close(shard);
    return status;
}
#define ert_shard_close(shard) ert_shard_close_tsan_(shard)

static inline int32_t ert_shard_processes_tsan_(ert_shard *shard, uint32_t *from, uint32_t *to) {
    int32_t status;
    ERT_TSAN_TOUCH_(shard);
    status = ert_shard_processes(shard, from, to);
    return status;
}
#define ert_shard_processes(shard, from, to) ert_shard_processes_tsan_(shard, from, to)

static inline int32_t ert_shard_monotonic_time_tsan_(ert_shard *shard, int64_t *time) {
    int32_t status;
    ERT_TSAN_TOUCH_(shard);
    status = ert_shard_monotonic_time(shard, time);
    __tsan_acquire(&ert_tsan_ticks_);
    return status;
}
#define ert_shard_monotonic_time(shard, time) ert_shard_monotonic_time_tsan_(shard, time)

static inline int32_t ert_shard_system_time_tsan_(ert_shard *shard, int64_t *time) {
    int32_t status;
    ERT_TSAN_TOUCH_(shard);
    status = ert_shard_system_time(shard, time);
    __tsan_acquire(&ert_tsan_ticks_);
    return status;
}
#define ert_shard_system_time(shard, time) ert_shard_system_time_tsan_(shard, time)

static inline int32_t ert_shard_time_offset_tsan_(ert_shard *shard, ert_offset *offset) {
    int32_t status;
    ERT_TSAN_TOUCH_(shard);
    status = ert_shard_time_offset(shard, offset);
    __tsan_acquire(&ert_tsan_ticks_);
    return status;
}
#define ert_shard_time_offset(shard, offset) ert_shard_time_offset_tsan_(shard, offset)

static inline int32_t ert_shard_start_tsan_(ert_shard *shard, const ert_start *start, ert_timer *timer) {
    int32_t status;
    ERT_TSAN_TOUCH_(shard);
    status = ert_shard_start(shard, start, timer);
    __tsan_acquire(&ert_tsan_ticks_);
    return status;
}
#define ert_shard_start(shard, start, timer) ert_shard_start_tsan_(shard, start, timer)

static inline int32_t ert_shard_restart_tsan_(ert_shard *shard, ert_timer *timer, const ert_start *start) {
    int32_t status;
    char *const at = ert_tsan_timer_(timer);
    ERT_TSAN_TOUCH_(shard);
    __tsan_release(at);
    status = ert_shard_restart(shard, timer, start);
    __tsan_acquire(at);
    __tsan_acquire(&ert_tsan_turns_);
    return status;
}
#define ert_shard_restart(shard, timer, start) ert_shard_restart_tsan_(shard, timer, start)

static inline int32_t ert_shard_cancel_tsan_(ert_shard *shard, const ert_timer *timer, uint64_t *left) {
    int32_t status;
    char *const at = ert_tsan_timer_(timer);
    ERT_TSAN_TOUCH_(shard);
    __tsan_release(at);
    status = ert_shard_cancel(shard, timer, left);
    __tsan_acquire(at);
    __tsan_acquire(&ert_tsan_turns_);
    return status;
}
#define ert_shard_cancel(shard, timer, left) ert_shard_cancel_tsan_(shard, timer, left)

static inline int32_t ert_shard_read_tsan_(ert_shard *shard, const ert_timer *timer, uint64_t *left) {
    int32_t status;
    char *const at = ert_tsan_timer_(timer);
    ERT_TSAN_TOUCH_(shard);
    status = ert_shard_read(shard, timer, left);
    __tsan_acquire(at);
    __tsan_acquire(&ert_tsan_turns_);
    return status;
}
#define ert_shard_read(shard, timer, left) ert_shard_read_tsan_(shard, timer, left)

static inline int32_t ert_shard_held_tsan_(ert_shard *shard, uint64_t *held) {
    int32_t status;
    ERT_TSAN_TOUCH_(shard);
    status = ert_shard_held(shard, held);
    return status;
}
#define ert_shard_held(shard, held) ert_shard_held_tsan_(shard, held)

static inline int32_t ert_shard_expired_tsan_(ert_shard *shard, uint64_t *expired) {
    int32_t status;
    ERT_TSAN_TOUCH_(shard);
    status = ert_shard_expired(shard, expired);
    return status;
}
#define ert_shard_expired(shard, expired) ert_shard_expired_tsan_(shard, expired)

static inline int32_t ert_shard_mail_count_tsan_(ert_shard *shard, uint32_t process, uint64_t *count) {
    int32_t status;
    ERT_TSAN_TOUCH_(shard);
    status = ert_shard_mail_count(shard, process, count);
    return status;
}
#define ert_shard_mail_count(shard, process, count) ert_shard_mail_count_tsan_(shard, process, count)

static inline int32_t ert_shard_is_alive_tsan_(ert_shard *shard, uint32_t process, uint32_t *alive) {
    int32_t status;
    ERT_TSAN_TOUCH_(shard);
    status = ert_shard_is_alive(shard, process, alive);
    __tsan_acquire(&ert_tsan_turns_);
    return status;
}
#define ert_shard_is_alive(shard, process, alive) ert_shard_is_alive_tsan_(shard, process, alive)

static inline int32_t ert_shard_exit_tsan_(ert_shard *shard, uint32_t process, uint32_t *first) {
    int32_t status;
    ERT_TSAN_TOUCH_(shard);
    __tsan_release(&ert_tsan_turns_);
    status = ert_shard_exit(shard, process, first);
    __tsan_acquire(&ert_tsan_turns_);
    return status;
}
#define ert_shard_exit(shard, process, first) ert_shard_exit_tsan_(shard, process, first)

static inline int32_t ert_shard_take_tsan_(ert_shard *shard, uint32_t process, ert_mail *mail) {
    int32_t status;
    ERT_TSAN_TOUCH_(shard);
    status = ert_shard_take(shard, process, mail);
    __tsan_acquire(&ert_tsan_turns_);
    return status;
}
#define ert_shard_take(shard, process, mail) ert_shard_take_tsan_(shard, process, mail)

static inline int32_t ert_shard_take_some_tsan_(ert_shard *shard, uint32_t process, ert_mail *mails, size_t room,
    size_t *count) {
    int32_t status;
    ERT_TSAN_TOUCH_(shard);
    status = ert_shard_take_some(shard, process, mails, room, count);
    __tsan_acquire(&ert_tsan_turns_);
    return status;
}
#define ert_shard_take_some(shard, process, mails, room, count) ert_shard_take_some_tsan_(shard, process, mails, room, \
    count)

static inline int32_t ert_shard_next_mail_tsan_(ert_shard *shard, uint32_t *process) {
    int32_t status;
    ERT_TSAN_TOUCH_(shard);
    status = ert_shard_next_mail(shard, process);
    return status;
}
#define ert_shard_next_mail(shard, process) ert_shard_next_mail_tsan_(shard, process)

static inline int32_t ert_shard_reserve_mail_tsan_(ert_shard *shard, uint32_t process, size_t count) {
    int32_t status;
    ERT_TSAN_TOUCH_(shard);
    status = ert_shard_reserve_mail(shard, process, count);
    return status;
}
#define ert_shard_reserve_mail(shard, process, count) ert_shard_reserve_mail_tsan_(shard, process, count)

static inline int32_t ert_shard_shrink_mail_tsan_(ert_shard *shard, uint32_t process) {
    int32_t status;
    ERT_TSAN_TOUCH_(shard);
    status = ert_shard_shrink_mail(shard, process);
    return status;
}
#define ert_shard_shrink_mail(shard, process) ert_shard_shrink_mail_tsan_(shard, process)

static inline int32_t ert_shard_ask_tsan_(ert_shard *shard, const ert_request *request) {
    int32_t status;
    ERT_TSAN_TOUCH_(shard);
    status = ert_shard_ask(shard, request);
    return status;
}
#define ert_shard_ask(shard, request) ert_shard_ask_tsan_(shard, request)

static inline int32_t ert_shard_serve_tsan_(ert_shard *shard, uint32_t *served) {
    int32_t status;
    ERT_TSAN_TOUCH_(shard);
    status = ert_shard_serve(shard, served);
    return status;
}
#define ert_shard_serve(shard, served) ert_shard_serve_tsan_(shard, served)

static inline int32_t ert_shard_monitor_tsan_(ert_shard *shard, uint32_t process, uint32_t *monitor) {
    int32_t status;
    ERT_TSAN_TOUCH_(shard);
    status = ert_shard_monitor(shard, process, monitor);
    return status;
}
#define ert_shard_monitor(shard, process, monitor) ert_shard_monitor_tsan_(shard, process, monitor)

static inline int32_t ert_shard_demonitor_tsan_(ert_shard *shard, uint32_t process, uint32_t monitor) {
    int32_t status;
    ERT_TSAN_TOUCH_(shard);
    status = ert_shard_demonitor(shard, process, monitor);
    return status;
}
#define ert_shard_demonitor(shard, process, monitor) ert_shard_demonitor_tsan_(shard, process, monitor)

static inline int32_t ert_shard_notify_tsan_(ert_shard *shard, uint32_t process, uint32_t *sent) {
    int32_t status;
    ERT_TSAN_TOUCH_(shard);
    status = ert_shard_notify(shard, process, sent);
    return status;
}
#define ert_shard_notify(shard, process, sent) ert_shard_notify_tsan_(shard, process, sent)

static inline int32_t ert_shard_advance_tsan_(ert_shard *shard, ert_advanced *advanced) {
    int32_t status;
    ERT_TSAN_TOUCH_(shard);
    __tsan_release(&ert_tsan_turns_);
    status = ert_shard_advance(shard, advanced);
    __tsan_acquire(&ert_tsan_ticks_);
    __tsan_acquire(&ert_tsan_turns_);
    return status;
}
#define ert_shard_advance(shard, advanced) ert_shard_advance_tsan_(shard, advanced)

static inline int32_t ert_shard_deliver_tsan_(ert_shard *shard, ert_delivered *delivered) {
    int32_t status;
    ERT_TSAN_TOUCH_(shard);
    __tsan_release(&ert_tsan_turns_);
    status = ert_shard_deliver(shard, delivered);
    __tsan_acquire(&ert_tsan_turns_);
    return status;
}
#define ert_shard_deliver(shard, delivered) ert_shard_deliver_tsan_(shard, delivered)

static inline int32_t ert_shard_turn_tsan_(ert_shard *shard, ert_turned *turned) {
    int32_t status;
    ERT_TSAN_TOUCH_(shard);
    __tsan_release(&ert_tsan_turns_);
    status = ert_shard_turn(shard, turned);
    __tsan_acquire(&ert_tsan_ticks_);
    __tsan_acquire(&ert_tsan_turns_);
    return status;
}
#define ert_shard_turn(shard, turned) ert_shard_turn_tsan_(shard, turned)

static inline int32_t ert_shard_turn_some_tsan_(ert_shard *shard, uint32_t most, ert_turned_some *turned) {
    int32_t status;
    ERT_TSAN_TOUCH_(shard);
    __tsan_release(&ert_tsan_turns_);
    status = ert_shard_turn_some(shard, most, turned);
    __tsan_acquire(&ert_tsan_ticks_);
    __tsan_acquire(&ert_tsan_turns_);
    return status;
}
#define ert_shard_turn_some(shard, most, turned) ert_shard_turn_some_tsan_(shard, most, turned)

static inline int32_t ert_shard_next_due_tsan_(ert_shard *shard, uint64_t *due) {
    int32_t status;
    ERT_TSAN_TOUCH_(shard);
    status = ert_shard_next_due(shard, due);
    return status;
}
#define ert_shard_next_due(shard, due) ert_shard_next_due_tsan_(shard, due)

static inline int32_t ert_shard_drop_settled_tsan_(ert_shard *shard, uint64_t *dropped) {
    int32_t status;
    ERT_TSAN_TOUCH_(shard);
    status = ert_shard_drop_settled(shard, dropped);
    return status;
}
#define ert_shard_drop_settled(shard, dropped) ert_shard_drop_settled_tsan_(shard, dropped)

static inline int32_t ert_shard_reserve_expired_tsan_(ert_shard *shard, size_t count) {
    int32_t status;
    ERT_TSAN_TOUCH_(shard);
    status = ert_shard_reserve_expired(shard, count);
    return status;
}
#define ert_shard_reserve_expired(shard, count) ert_shard_reserve_expired_tsan_(shard, count)

static inline int32_t ert_shard_shrink_expired_tsan_(ert_shard *shard) {
    int32_t status;
    ERT_TSAN_TOUCH_(shard);
    status = ert_shard_shrink_expired(shard);
    return status;
}
#define ert_shard_shrink_expired(shard) ert_shard_shrink_expired_tsan_(shard)

#endif
