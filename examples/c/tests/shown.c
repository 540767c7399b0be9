/* What `tools/gdb` shows: gdb stops in `show`, and prints the variables of `main`, as shown.out has them. */
#include <stdlib.h>

#include "ertime.h"

static volatile int shown;

__attribute__((noinline)) static void show(void) { shown += 1; }

int main(void) {
    ert_world world = ERT_INIT, closed = ERT_INIT, broken = {NULL, true};
    ert_seat seat = ERT_INIT;
    ert_hub hub = ERT_INIT;
    ert_shard shard = ERT_INIT;
    ert_reading first = {0, 0};
    ert_settings settings;
    const ert_timer timer = {1, 5, 262144};
    const ert_mail mails[] = {
        {.tag = ERT_TIMEOUT, .timer = {1, 5, 262144}, .msg = 7},
        {.tag = ERT_BARE, .msg = 8},
        {.tag = ERT_CANCEL_DONE, .timer = {0, 2, 3}, .has_left = 1, .left = 20},
        {.tag = ERT_READ_DONE, .timer = {0, 2, 3}},
        {.tag = ERT_CHANGE, .monitor = 4, .offset = -9},
        {.tag = 9},
    };
    const ert_request requests[] = {{ERT_CANCEL, {0, 2, 3}, 4, 1}, {ERT_READ, {0, 2, 3}, 0, 0}, {7, {0, 0, 0}, 0, 0}};
    ert_settings_init(&settings, &first);
    settings.callers = 2;
    if (ert_world_open(&world, &settings) != ERT_OK || ert_seat_open(&seat, &world) != ERT_OK
        || ert_hub_open(&hub, &settings) != ERT_OK || ert_hub_shard(&hub, &shard, 1) != ERT_OK) {
        return EXIT_FAILURE;
    }
    show();
    (void)closed, (void)broken, (void)timer, (void)mails, (void)requests;
    ert_shard_close(&shard);
    ert_hub_close(&hub);
    ert_seat_close(&seat);
    ert_world_close(&world);
    return EXIT_SUCCESS;
}
