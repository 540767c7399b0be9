/* Calls that are noted, and the lines of a log that tell them. */
#ifndef NOTED_H
#define NOTED_H

#include "ertime.h"

typedef enum {
    TICK,
    FINALIZE,
    TIME,
    SYSTEM,
    OFFSET,
    START,
    RESTART,
    CANCEL,
    READ,
    ALIVE,
    EXIT,
    TAKE,
    TAKE_SOME,
    NEXT_MAIL,
    ASK,
    SERVE,
    MONITOR,
    DEMONITOR,
    NOTIFY,
    ADVANCE,
    DELIVER,
    TURN
} kind;

/* The most messages that are taken at once. */
enum { MOST_TAKEN = 4 };

/* A call: what it was asked and what it answered, of which its kind tells the fields that are used. */
typedef struct {
    uint64_t begin, end;
    kind kind;
    int32_t status;
    ert_reading reading;
    uint32_t force, process, monitor;
    ert_start start;
    ert_timer timer, restarted;
    ert_moved moved;
    ert_offset offset;
    ert_request request;
    ert_mail mails[MOST_TAKEN];
    size_t room, taken;
    ert_turned turned;
    int64_t time;
    uint64_t left;
    uint32_t told;
} call;

/* Make a call that was asked through a handle that has it, and tell its status. */
int32_t call_hub(ert_hub *hub, call *c);
int32_t call_seat(ert_seat *seat, call *c);
int32_t call_shard(ert_shard *shard, call *c);

/* Writes the first line of a log, of which `settings` has all. */
void write_settings(const ert_settings *settings);

/* Writes the line of a call that this caller made. */
void write_call(uint32_t caller, const call *c);

#endif
