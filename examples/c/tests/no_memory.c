/*
 * Out of memory: each allocation fails in turn, and where there is room in the mailboxes and in the list of expired timers
 * a turn makes none. Linked with --wrap=malloc and --wrap=realloc; the address sanitizer tells at the end whether anything
 * was lost.
 */
#include <inttypes.h>
#include <stdio.h>
#include <stdlib.h>

#include "ertime.h"

void *__real_malloc(size_t size);
void *__real_realloc(void *block, size_t size);
void *__wrap_malloc(size_t size);
void *__wrap_realloc(void *block, size_t size);

/* How many allocations succeed before all fail; negative: none fails. */
static long succeed = -1;

static bool fails(void) {
    if (succeed > 0) {
        succeed -= 1;
        return false;
    }
    return succeed == 0;
}

void *__wrap_malloc(size_t size) { return fails() ? NULL : __real_malloc(size); }

void *__wrap_realloc(void *block, size_t size) { return fails() ? NULL : __real_realloc(block, size); }

static void expect(int line, int32_t got, int32_t wanted) {
    if (got != wanted) {
        fprintf(stderr, "line %d: status %" PRId32 ", not %" PRId32 "\n", line, got, wanted);
        exit(EXIT_FAILURE);
    }
}

#define IS(got, wanted) expect(__LINE__, got, wanted)

static const ert_settings settings = {
    .size = sizeof(ert_settings),
    .schedulers = 2,
    .processes = 2,
    .slots = 3,
    .callers = 2,
    .looks = 64,
};

/* After ERT_NO_MEMORY the call can be made again. */
static void made_again(ert_world *world, int32_t (*call)(ert_world *)) {
    succeed = 0;
    int32_t status = call(world);
    succeed = -1;
    if (status == ERT_NO_MEMORY) {
        status = call(world);
    }
    IS(status, ERT_OK);
}

static ert_timer timer;

static int32_t ask(ert_world *world) {
    ert_request request = {.kind = ERT_READ, .timer = timer, .reply_to = 1, .info = 1};
    return ert_world_ask(world, &request);
}

static int32_t monitor(ert_world *world) {
    uint32_t number;
    return ert_world_monitor(world, 0, &number);
}

static int32_t turn(ert_world *world) {
    ert_turned turned;
    return ert_world_turn(world, 0, &turned);
}

/* A hub gives a shard, and a seat, each time memory runs out: nothing of it is lost. */
static void divide(void) {
    ert_settings divided = settings;
    ert_hub hub = ERT_INIT;
    ert_shard shards[2] = {ERT_INIT, ERT_INIT};
    ert_seat seat = ERT_INIT;
    uint32_t from, to;
    divided.callers = 4;
    IS(ert_hub_open(&hub, &divided), ERT_OK);
    for (int i = 0; i < 2; i++) {
        int32_t status;
        long refused = 0;
        do {
            succeed = refused;
            status = ert_hub_shard(&hub, &shards[i], 1);
            succeed = -1;
            refused++;
        } while (status == ERT_NO_MEMORY && refused < 100);
        IS(status, ERT_OK);
        IS(refused > 1, 1);
        IS(ert_shard_processes(&shards[i], &from, &to), ERT_OK);
        IS((int32_t)from, 1 - i);
        IS((int32_t)to, 2 - i);
    }
    succeed = 0;
    IS(ert_hub_seat(&hub, &seat), ERT_NO_MEMORY);
    succeed = -1;
    IS(ert_seat_close(&seat), ERT_CLOSED);
    IS(ert_hub_seat(&hub, &seat), ERT_OK);
    IS(ert_seat_close(&seat), ERT_OK);
    IS(ert_hub_close(&hub), ERT_OK);
    IS(ert_shard_close(&shards[0]), ERT_OK);
    IS(ert_shard_close(&shards[1]), ERT_OK);
}

/* So many timers of a process expire, with messages that are numbered from one on. */
static void expire(ert_world *world, uint32_t process, int32_t count, uint64_t from) {
    ert_advanced advanced;
    for (int32_t it = 0; it < count; it++) {
        ert_start start = {.when = 0, .msg = from + (uint64_t)it, .dest = process};
        IS(ert_world_start(world, 0, &start, &timer), ERT_OK);
    }
    IS(ert_world_advance(world, 0, &advanced), ERT_OK);
    IS((int32_t)advanced.expired, count);
}

/* A delivery while no allocation succeeds. */
static void deliver(ert_world *world, int32_t status) {
    ert_delivered delivered;
    succeed = 0;
    IS(ert_world_deliver(world, 0, &delivered), status);
    succeed = -1;
}

/* Messages of a process come in the order of their numbers, and then there is none. */
static void take(ert_world *world, uint32_t process, int32_t count, uint64_t from) {
    ert_mail mail;
    for (int32_t it = 0; it < count; it++) {
        IS(ert_world_take(world, process, &mail), ERT_OK);
        IS(mail.msg == from + (uint64_t)it, 1);
    }
}

#define BURST 1000
#define REST 10

/* Where there is room in a mailbox its messages need no memory, and where it was given back they do. */
static void room_of_a_mailbox(void) {
    ert_settings roomy = settings;
    ert_world world = ERT_INIT;
    ert_delivered delivered;
    ert_mail mail;
    roomy.slots = BURST;
    IS(ert_world_open(&world, &roomy), ERT_OK);
    expire(&world, 1, BURST, 0);
    deliver(&world, ERT_NO_MEMORY);
    succeed = 0;
    IS(ert_world_reserve_mail(&world, 1, BURST), ERT_NO_MEMORY);
    succeed = -1;
    IS(ert_world_reserve_mail(&world, 1, SIZE_MAX), ERT_NO_MEMORY);
    IS(ert_world_reserve_mail(&world, 0, BURST), ERT_OK);
    deliver(&world, ERT_NO_MEMORY); /* that is the room of another process */
    IS(ert_world_reserve_mail(&world, 1, BURST), ERT_OK);
    succeed = 0;
    IS(ert_world_reserve_mail(&world, 1, BURST), ERT_OK); /* there is the room */
    deliver(&world, ERT_OK);
    take(&world, 1, BURST - REST, 0);
    succeed = 0;
    IS(ert_world_shrink_mail(&world, 1), ERT_NO_MEMORY);
    succeed = -1;
    IS(ert_world_shrink_mail(&world, 1), ERT_OK);
    succeed = 0;
    IS(ert_world_shrink_mail(&world, 1), ERT_OK); /* there is nothing to give back */
    succeed = -1;
    expire(&world, 1, 1, BURST);
    deliver(&world, ERT_NO_MEMORY);
    IS(ert_world_deliver(&world, 0, &delivered), ERT_OK);
    take(&world, 1, REST + 1, BURST - REST);
    IS(ert_world_take(&world, 1, &mail), ERT_EMPTY);
    succeed = 0;
    IS(ert_world_shrink_mail(&world, 1), ERT_OK); /* without messages it takes no memory */
    succeed = -1;
    expire(&world, 1, 1, 0);
    deliver(&world, ERT_NO_MEMORY);
    IS(ert_world_close(&world), ERT_OK);
}

/* The same of a shard, whose processes aren't counted from 0. */
static void room_of_a_shard(void) {
    ert_settings divided = settings;
    ert_hub hub = ERT_INIT;
    ert_shard shard = ERT_INIT;
    ert_delivered delivered;
    ert_advanced advanced;
    ert_mail mail;
    divided.callers = 3;
    divided.processes = 4;
    IS(ert_hub_open(&hub, &divided), ERT_OK);
    IS(ert_hub_shard(&hub, &shard, 2), ERT_OK);
    for (uint32_t process = 2; process < 4; process++) {
        ert_start start = {.when = 0, .msg = process, .dest = process};
        IS(ert_shard_start(&shard, &start, &timer), ERT_OK);
    }
    IS(ert_shard_advance(&shard, &advanced), ERT_OK);
    IS(ert_shard_reserve_mail(&shard, 2, 1), ERT_OK);
    succeed = 0;
    IS(ert_shard_deliver(&shard, &delivered), ERT_NO_MEMORY);
    IS(ert_shard_take(&shard, 2, &mail), ERT_OK);
    IS(ert_shard_take(&shard, 3, &mail), ERT_EMPTY);
    IS(ert_shard_reserve_mail(&shard, 3, 1), ERT_NO_MEMORY);
    succeed = -1;
    IS(ert_shard_reserve_mail(&shard, 3, SIZE_MAX), ERT_NO_MEMORY);
    IS(ert_shard_reserve_mail(&shard, 3, 1), ERT_OK);
    IS(ert_shard_shrink_mail(&shard, 2), ERT_OK);
    succeed = 0;
    IS(ert_shard_deliver(&shard, &delivered), ERT_OK);
    IS((int32_t)delivered.put, 1);
    IS(ert_shard_take(&shard, 3, &mail), ERT_OK);
    IS((int32_t)mail.msg, 3);
    IS(ert_shard_shrink_mail(&shard, 3), ERT_OK);
    succeed = -1;
    for (uint32_t process = 2; process < 4; process++) {
        ert_start start = {.when = 0, .msg = process, .dest = process};
        IS(ert_shard_start(&shard, &start, &timer), ERT_OK);
        IS(ert_shard_advance(&shard, &advanced), ERT_OK);
        succeed = 0;
        IS(ert_shard_deliver(&shard, &delivered), ERT_NO_MEMORY); /* both gave back what they had */
        succeed = -1;
        IS(ert_shard_deliver(&shard, &delivered), ERT_OK);
    }
    IS(ert_shard_close(&shard), ERT_OK);
    IS(ert_hub_close(&hub), ERT_OK);
}

/* So many timers of process 1 are started that are due at once, with messages that are numbered from 0 on. */
static void start_due(ert_world *world, int32_t count) {
    for (int32_t it = 0; it < count; it++) {
        ert_start start = {.when = 0, .msg = (uint64_t)it, .dest = 1};
        IS(ert_world_start(world, 0, &start, &timer), ERT_OK);
    }
}

/* A turn while no allocation succeeds. Where it ends well, so many timers expired and were delivered. */
static void turn_without(ert_world *world, int32_t status, int32_t served, int32_t expired) {
    ert_turned turned;
    succeed = 0;
    IS(ert_world_turn(world, 0, &turned), status);
    succeed = -1;
    if (status == ERT_OK) {
        IS((int32_t)turned.served, served);
        IS((int32_t)turned.expired, expired);
        IS((int32_t)turned.put, expired);
    }
}

static void take_answer(ert_world *world) {
    ert_mail mail;
    IS(ert_world_take(world, 1, &mail), ERT_OK);
    IS((int32_t)mail.tag, ERT_READ_DONE);
}

static int32_t expired_of(ert_world *world) {
    uint64_t expired;
    IS(ert_world_expired(world, 0, &expired), ERT_OK);
    return (int32_t)expired;
}

/* An advance while no allocation succeeds. */
static void advance(ert_world *world, int32_t status) {
    ert_advanced advanced;
    succeed = 0;
    IS(ert_world_advance(world, 0, &advanced), status);
    succeed = -1;
}

/* Where there is room in the mailbox and in the list of expired timers, a turn takes no memory. */
static void room_of_a_turn(void) {
    ert_settings roomy = settings;
    ert_world world = ERT_INIT;
    ert_turned_some some;
    roomy.slots = BURST;
    IS(ert_world_open(&world, &roomy), ERT_OK);
    IS(ert_world_reserve_mail(&world, 1, BURST + 2), ERT_OK);
    start_due(&world, BURST);
    IS(ask(&world), ERT_OK);
    turn_without(&world, ERT_NO_MEMORY, 0, 0); /* the request is served, and none has expired */
    take_answer(&world);
    IS(expired_of(&world), 0);
    succeed = 0;
    IS(ert_world_reserve_expired(&world, 0, BURST), ERT_NO_MEMORY);
    succeed = -1;
    IS(ert_world_reserve_expired(&world, 0, SIZE_MAX), ERT_NO_MEMORY);
    IS(ert_world_reserve_expired(&world, 1, BURST), ERT_OK);
    turn_without(&world, ERT_NO_MEMORY, 0, 0); /* that is the room of another scheduler */
    IS(ert_world_reserve_expired(&world, 0, BURST), ERT_OK);
    succeed = 0;
    IS(ert_world_reserve_expired(&world, 0, BURST), ERT_OK); /* there is the room */
    IS(ert_world_shrink_expired(&world, 1), ERT_OK);
    succeed = -1;
    IS(ask(&world), ERT_OK);
    turn_without(&world, ERT_OK, 1, BURST);
    take_answer(&world);
    take(&world, 1, BURST, 0);
    start_due(&world, BURST); /* what is delivered leaves its room to others */
    turn_without(&world, ERT_OK, 0, BURST);
    take(&world, 1, BURST, 0);

    start_due(&world, REST);
    advance(&world, ERT_OK);
    succeed = 0;
    IS(ert_world_shrink_expired(&world, 0), ERT_NO_MEMORY);
    succeed = -1;
    IS(ert_world_shrink_expired(&world, 0), ERT_OK);
    succeed = 0;
    IS(ert_world_shrink_expired(&world, 0), ERT_OK); /* there is nothing to give back */
    succeed = -1;
    start_due(&world, 1);
    advance(&world, ERT_NO_MEMORY);
    IS(expired_of(&world), REST);
    turn_without(&world, ERT_NO_MEMORY, 0, 0);
    IS(turn(&world), ERT_OK);
    take(&world, 1, REST, 0);
    take(&world, 1, 1, 0);
    succeed = 0;
    IS(ert_world_shrink_expired(&world, 0), ERT_OK); /* where none waits it takes no memory */
    succeed = -1;
    start_due(&world, BURST);
    turn_without(&world, ERT_NO_MEMORY, 0, 0);

    IS(ert_world_reserve_expired(&world, 0, REST), ERT_OK); /* a turn with a bound needs room for that */
    succeed = 0;
    for (int32_t left = BURST; left > 0; left -= REST) {
        do { /* the first turns look whether the timers are in order of their starts */
            IS(ert_world_turn_some(&world, 0, REST, &some), ERT_OK);
        } while (some.put == 0 && some.more != 0);
        IS((int32_t)some.put, REST);
        IS((int32_t)some.more, left > REST);
    }
    succeed = -1;
    take(&world, 1, BURST, 0);
    IS(ert_world_close(&world), ERT_OK);
}

/* The same of a shard. */
static void room_of_a_shards_turn(void) {
    ert_settings divided = settings;
    ert_hub hub = ERT_INIT;
    ert_shard shard = ERT_INIT;
    ert_advanced advanced;
    ert_turned turned;
    ert_mail mail;
    divided.callers = 3;
    divided.processes = 4;
    divided.slots = REST;
    IS(ert_hub_open(&hub, &divided), ERT_OK);
    IS(ert_hub_shard(&hub, &shard, 2), ERT_OK);
    IS(ert_shard_reserve_mail(&shard, 3, REST + 1), ERT_OK);
    for (uint64_t it = 0; it < REST; it++) {
        ert_start start = {.when = 0, .msg = it, .dest = 3};
        IS(ert_shard_start(&shard, &start, &timer), ERT_OK);
    }
    ert_request request = {.kind = ERT_READ, .timer = timer, .reply_to = 3, .info = 1};
    IS(ert_shard_ask(&shard, &request), ERT_OK);
    succeed = 0;
    IS(ert_shard_turn(&shard, &turned), ERT_NO_MEMORY);
    IS(ert_shard_reserve_expired(&shard, REST), ERT_NO_MEMORY);
    succeed = -1;
    IS(ert_shard_reserve_expired(&shard, SIZE_MAX), ERT_NO_MEMORY);
    IS(ert_shard_reserve_expired(&shard, REST), ERT_OK);
    succeed = 0;
    IS(ert_shard_turn(&shard, &turned), ERT_OK);
    IS((int32_t)turned.put, REST);
    IS(ert_shard_take(&shard, 3, &mail), ERT_OK);
    IS((int32_t)mail.tag, ERT_READ_DONE);
    for (uint64_t it = 0; it < REST; it++) {
        IS(ert_shard_take(&shard, 3, &mail), ERT_OK);
        IS(mail.msg == it, 1);
    }
    IS(ert_shard_take(&shard, 3, &mail), ERT_EMPTY);
    succeed = -1;
    ert_start start = {.when = 0, .msg = 7, .dest = 3};
    IS(ert_shard_start(&shard, &start, &timer), ERT_OK);
    succeed = 0;
    IS(ert_shard_advance(&shard, &advanced), ERT_OK);
    IS((int32_t)advanced.expired, 1);
    IS(ert_shard_shrink_expired(&shard), ERT_NO_MEMORY);
    succeed = -1;
    IS(ert_shard_shrink_expired(&shard), ERT_OK);
    IS(ert_shard_start(&shard, &start, &timer), ERT_OK);
    succeed = 0;
    IS(ert_shard_advance(&shard, &advanced), ERT_NO_MEMORY);
    succeed = -1;
    IS(ert_shard_turn(&shard, &turned), ERT_OK);
    IS((int32_t)turned.put, 2);
    succeed = 0;
    IS(ert_shard_shrink_expired(&shard), ERT_OK);
    succeed = -1;
    IS(ert_shard_start(&shard, &start, &timer), ERT_OK);
    succeed = 0;
    IS(ert_shard_turn(&shard, &turned), ERT_NO_MEMORY);
    succeed = -1;
    IS(ert_shard_close(&shard), ERT_OK);
    IS(ert_hub_close(&hub), ERT_OK);
}

int main(void) {
    ert_world world = ERT_INIT;
    long refused = 0;
    for (;; refused++) {
        succeed = refused;
        int32_t status = ert_world_open(&world, &settings);
        succeed = -1;
        if (status == ERT_OK) {
            break;
        }
        IS(status, ERT_NO_MEMORY);
        IS(ert_world_close(&world), ERT_CLOSED);
    }
    printf("open returned ERT_NO_MEMORY: %s\n", refused > 0 ? "yes" : "no");

    ert_seat seat = ERT_INIT;
    succeed = 0;
    IS(ert_seat_open(&seat, &world), ERT_NO_MEMORY);
    succeed = -1;
    IS(ert_seat_close(&seat), ERT_CLOSED);
    IS(ert_seat_open(&seat, &world), ERT_OK);
    ert_seat other = ERT_INIT;
    IS(ert_seat_open(&other, &world), ERT_NO_SEAT);

    ert_start start = {.when = 0, .msg = 7, .dest = 1};
    ert_mail mail;
    IS(ert_world_start(&world, 0, &start, &timer), ERT_OK);
    made_again(&world, ask);
    made_again(&world, monitor);
    made_again(&world, turn);
    IS(ert_world_take(&world, 1, &mail), ERT_OK);
    IS((int32_t)mail.tag, ERT_READ_DONE);
    IS(ert_world_take(&world, 1, &mail), ERT_OK);
    IS((int32_t)mail.tag, ERT_TIMEOUT);
    IS(ert_world_take(&world, 1, &mail), ERT_EMPTY);
    IS(ert_world_close(&world), ERT_OK);
    IS(ert_seat_close(&seat), ERT_OK);
    divide();
    room_of_a_mailbox();
    room_of_a_shard();
    room_of_a_turn();
    room_of_a_shards_turn();
    puts("each call could be made again");
    return EXIT_SUCCESS;
}
