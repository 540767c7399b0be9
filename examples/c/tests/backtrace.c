/*
 * A backtrace from any instruction of a call goes on to its caller: the processor is set to stop after each instruction
 * (the trap flag of x86-64), and from each stop the stack is followed by the tables of the library, up to `calls`.
 *
 *     cc backtrace.c $(pkg-config --cflags --libs ertime)
 */
#define _GNU_SOURCE
#ifndef __x86_64__
#error "the trap flag is one of x86-64"
#endif
#include <execinfo.h>
#include <inttypes.h>
#include <signal.h>
#include <stdio.h>
#include <stdlib.h>
#include <ucontext.h>

#include "ertime.h"

enum { DEPTH = 64, SHOWN = 10 };

/* The linker names the two ends of a section whose name is one of C. */
extern const char __start_callers[], __stop_callers[];

static volatile long stops, lost;

static int is_caller(const void *place) {
    return (const char *)place >= __start_callers && (const char *)place < __stop_callers;
}

static void stop(int number, siginfo_t *info, void *context) {
    void *frames[DEPTH];
    (void)number, (void)info;
    uintptr_t at = (uintptr_t)((ucontext_t *)context)->uc_mcontext.gregs[REG_RIP];
    if (is_caller((const void *)at)) {
        return;
    }
    stops += 1;
    int depth = backtrace(frames, DEPTH);
    for (int i = 0; i < depth; i++) {
        if (is_caller(frames[i])) {
            return;
        }
    }
    lost += 1;
    if (lost <= SHOWN) {
        void *place = (void *)at;
        backtrace_symbols_fd(&place, 1, 2);
    }
}

/* Sets or clears the trap flag, and leaves what lies below the stack pointer as it is. */
#define TRAP(how) \
    __asm__ volatile("lea -128(%%rsp), %%rsp; pushfq; " how "; popfq; lea 128(%%rsp), %%rsp" : : : "cc", "memory")

static void must(int line, int32_t status) {
    if (status != ERT_OK) {
        fprintf(stderr, "line %d: %s\n", line, ert_status_text(status));
        exit(EXIT_FAILURE);
    }
}

/* A call with the trap flag set. */
#define STEPPED(call) \
    do { \
        TRAP("orq $256, (%%rsp)"); \
        int32_t status = call; \
        TRAP("andq $-257, (%%rsp)"); \
        must(__LINE__, status); \
    } while (0)

__attribute__((noinline, section("callers"))) static void calls(void) {
    ert_world world = ERT_INIT;
    ert_seat seat = ERT_INIT;
    ert_reading first = {0, 0}, later = {2000000000, 9000000000};
    ert_settings settings;
    ert_start soon = {20, 7, 0, 0, 0}, late = {5000, 8, 0, 1, 0};
    ert_timer timer, other;
    ert_moved moved;
    ert_turned turned;
    ert_mail mail;
    uint64_t number;
    uint32_t count;
    int64_t time;
    ert_settings_init(&settings, &first);
    settings.slots = 2;
    settings.callers = 2;
    must(__LINE__, ert_world_open(&world, &settings));
    STEPPED(ert_seat_open(&seat, &world));
    STEPPED(ert_world_monitor(&world, 0, &count));
    STEPPED(ert_world_start(&world, 0, &soon, &timer));
    STEPPED(ert_world_start(&world, 0, &late, &other));
    ert_request request = {ERT_READ, timer, 0, 1};
    STEPPED(ert_world_ask(&world, &request));
    STEPPED(ert_world_next_due(&world, 0, &number));
    STEPPED(ert_seat_read(&seat, &other, &number));
    STEPPED(ert_seat_cancel(&seat, &other, &number));
    STEPPED(ert_world_tick(&world, &later, 1, &moved));
    STEPPED(ert_world_notify(&world, 0, &count));
    STEPPED(ert_world_turn(&world, 0, &turned));
    STEPPED(ert_world_take(&world, 0, &mail));
    STEPPED(ert_seat_system_time(&seat, &time));
    STEPPED(ert_world_ready(&world, 0, &count, &number));
    STEPPED(ert_world_exit(&world, 0, &count));
    STEPPED(ert_seat_close(&seat));
    STEPPED(ert_world_close(&world));
}

int main(void) {
    void *one;
    struct sigaction action = {.sa_sigaction = stop, .sa_flags = SA_SIGINFO};
    backtrace(&one, 1); /* it loads what it needs, so that no allocation is in the handler */
    sigemptyset(&action.sa_mask);
    if (sigaction(SIGTRAP, &action, NULL) != 0) {
        perror("sigaction");
        return EXIT_FAILURE;
    }
    calls();
    if (stops == 0 || lost != 0) {
        fprintf(stderr, "from %ld of %ld instructions the caller isn't found\n", lost, stops);
        return EXIT_FAILURE;
    }
    puts("from each instruction the caller is found");
    return EXIT_SUCCESS;
}
