/* What the header has itself: texts of statuses and messages, the recommended settings, intervals, the version. */
#include <inttypes.h>
#include <stdio.h>
#include <stdlib.h>
#include <string.h>

#include "ertime.h"

#define MILLISECOND INT64_C(1000000)
#define HOUR (3600 * INT64_C(1000) * MILLISECOND)

static int failed;

static void expect(int line, const char *what, int is_so) {
    if (!is_so) {
        fprintf(stderr, "line %d: %s\n", line, what);
        failed += 1;
    }
}

#define IS(got, wanted) expect(__LINE__, #got " isn't " #wanted, (got) == (wanted))
#define TELLS(text, wanted) expect(__LINE__, #text " is another text", strcmp((text), (wanted)) == 0)
/* A text begins with the name of its constant, and says more. */
#define NAMES(text, name) \
    expect(__LINE__, #text "(" #name ") has another name", \
           strncmp(text(name), #name ": ", sizeof #name ": " - 1) == 0 && text(name)[sizeof #name ": " - 1] != '\0')

static void texts(void) {
    NAMES(ert_status_text, ERT_OK);
    NAMES(ert_status_text, ERT_CLOSED);
    NAMES(ert_status_text, ERT_OPEN);
    NAMES(ert_status_text, ERT_NO_MEMORY);
    NAMES(ert_status_text, ERT_BAD_SIZE);
    NAMES(ert_status_text, ERT_BAD_MODE);
    NAMES(ert_status_text, ERT_BAD_START);
    NAMES(ert_status_text, ERT_BAD_READING);
    NAMES(ert_status_text, ERT_BAD_COUNT);
    NAMES(ert_status_text, ERT_OFFSET_WIDE);
    NAMES(ert_status_text, ERT_RANGE);
    NAMES(ert_status_text, ERT_BAD_TIME);
    NAMES(ert_status_text, ERT_FULL);
    NAMES(ert_status_text, ERT_NO_TIMER);
    NAMES(ert_status_text, ERT_EMPTY);
    NAMES(ert_status_text, ERT_EXITED);
    NAMES(ert_status_text, ERT_BAD_KIND);
    NAMES(ert_status_text, ERT_NO_MONITOR);
    NAMES(ert_status_text, ERT_NO_SEAT);
    NAMES(ert_status_text, ERT_NO_SHARD);
    TELLS(ert_status_text(1), "an unknown status");
    TELLS(ert_status_text(ERT_NO_SHARD - 1), "an unknown status");
    TELLS(ert_status_text(INT32_MIN), "an unknown status");
    NAMES(ert_event_text, ERT_TIMEOUT);
    NAMES(ert_event_text, ERT_BARE);
    NAMES(ert_event_text, ERT_CANCEL_DONE);
    NAMES(ert_event_text, ERT_READ_DONE);
    NAMES(ert_event_text, ERT_CHANGE);
    TELLS(ert_event_text(0), "an unknown kind of message");
    TELLS(ert_event_text(ERT_CHANGE + 1), "an unknown kind of message");
    TELLS(ert_event_text(UINT32_MAX), "an unknown kind of message");
}

/* The recommended settings open a service, and its timers go on whatever happens to the system clock. */
/* An interval that is due at one time goes on past another: to which deadline, and how many are left out. */
static void intervals(void) {
    static const struct {
        int64_t due, period, now, next, after;
        uint64_t left_out;
    } rows[] = {
        {10, 5, 10, 15, 15, 0},
        {10, 5, 9, 15, 15, 0},
        {10, 5, 14, 15, 15, 0},
        {10, 5, 15, 15, 20, 1},
        {10, 5, 27, 15, 30, 3},
        {-7, 5, 4, -2, 8, 2},
        {10, 1, INT64_MAX - 1, 11, INT64_MAX, UINT64_C(9223372036854775796)},
        {10, INT64_MAX, 27, INT64_MAX, INT64_MAX, 0},
        {INT64_MIN, INT64_MAX, INT64_MAX, -1, INT64_MAX, 2},
        {10, 0, 27, INT64_MAX, INT64_MAX, 0},
        {10, -5, 27, INT64_MAX, INT64_MAX, 0},
    };
    for (size_t i = 0; i < sizeof rows / sizeof *rows; i++) {
        ert_repeat next = {{.when = rows[i].due, .absolute = 1, .msg = 7}, rows[i].period}, skip = next;
        uint64_t left_out = UINT64_MAX;
        IS(ert_repeat_next(&next), &next.start);
        IS(next.start.when, rows[i].next);
        IS(ert_repeat_skip(&skip, rows[i].now, &left_out), &skip.start);
        IS(skip.start.when, rows[i].after);
        IS(left_out, rows[i].left_out);
        IS(skip.start.msg, UINT64_C(7));
    }
}

static void recommended(void) {
    ert_reading first = {5 * HOUR, 9 * HOUR};
    ert_settings settings;
    ert_world world = ERT_INIT;
    ert_seat seat = ERT_INIT;
    ert_timer timer;
    ert_moved moved;
    ert_turned turned;
    ert_mail mail;
    ert_offset offset;
    int64_t time;

    /* Whatever stood there before, each field is set. */
    memset(&settings, 0xff, sizeof settings);
    ert_settings_init(&settings, &first);
    IS(settings.size, sizeof(ert_settings));
    IS(settings.mode, ERT_MULTI_WARP);
    IS(settings.correction, 1);
    IS(settings.slots, 1024);
    IS(settings.looks, 64);
    IS(settings.start, 0);
    IS(ert_world_open(&world, &settings), ERT_OK);
    IS(ert_world_monotonic_time(&world, &time), ERT_OK);
    IS(time, 0);
    IS(ert_world_system_time(&world, &time), ERT_OK);
    IS(time, first.sys);
    IS(ert_world_time_offset(&world, &offset), ERT_OK);
    IS(offset.state, ERT_VOLATILE);
    IS(ert_seat_open(&seat, &world), ERT_NO_SEAT);

    /* 1,024 timers find room, and not one more. */
    ert_start start = {20, 7, 0, 0, 0};
    for (int i = 0; i < 1024; i++) {
        IS(ert_world_start(&world, 0, &start, &timer), ERT_OK);
    }
    IS(ert_world_start(&world, 0, &start, &timer), ERT_FULL);

    /* The system clock is set back by an hour at once: the timers are due all the same. */
    ert_reading later = {first.mono + 20 * MILLISECOND, first.sys - HOUR};
    IS(ert_world_tick(&world, &later, 1, &moved), ERT_OK);
    IS(moved.now, 20 * MILLISECOND);
    IS(moved.shifted, 1);
    IS(ert_world_turn(&world, 0, &turned), ERT_OK);
    IS(turned.put, 1024);
    IS(ert_world_take(&world, 0, &mail), ERT_OK);
    IS(mail.tag, ERT_TIMEOUT);
    IS(mail.msg, 7);
    IS(ert_world_close(&world), ERT_OK);
}

#if ERTIME_VERSION < 1000000 || ERTIME_VERSION >= 2000000
#error "another major version"
#endif

static void version(void) {
    char text[32];
    snprintf(text, sizeof text, "%d.%d.%d", ERTIME_VERSION_MAJOR, ERTIME_VERSION_MINOR, ERTIME_VERSION_PATCH);
    TELLS(ERTIME_VERSION_TEXT, text);
    IS(ERTIME_VERSION / 1000000, ERTIME_VERSION_MAJOR);
    IS(ERTIME_VERSION / 1000 % 1000, ERTIME_VERSION_MINOR);
    IS(ERTIME_VERSION % 1000, ERTIME_VERSION_PATCH);
}

int main(void) {
    texts();
    intervals();
    recommended();
    version();
    if (failed != 0) {
        return EXIT_FAILURE;
    }
    puts("what the header has itself is as it says");
    return EXIT_SUCCESS;
}
