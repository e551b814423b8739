/* The calls of a capture: one for each record, a datagram with its M, from a fresh table. */
#ifndef HARNESS_CALLS_H
#define HARNESS_CALLS_H

#include <stdbool.h>
#include <stddef.h>
#include <stdint.h>

#include "../kungthevi.h"
#include "capture.h"
#include "record_out.h"
#include "status.h"

struct calls {
    struct capture *capture; /* stands at the record of the last call */
    uint32_t answer;         /* to the last call */
    uint64_t refused;        /* how many were */
    uint8_t room[KUNGTHEVI_FRAME_ROOM_SIZE];
    uint8_t table[KUNGTHEVI_TABLE_SIZE];
};

void calls_start(struct calls *calls, struct capture *capture);

/* Makes the call of the next record. Returns false if there is none. */
bool calls_next(struct calls *calls);

/* Reads the record that the last call wrote at that place of its room, and moves the place behind it. False if none. */
bool calls_record(const struct calls *calls, size_t *place, struct record_out *record);

/* Whether the calls are those of the whole capture. If not, its text has no last line, which would tell of a part. */
bool calls_whole(const struct calls *calls);

enum status calls_status(const struct calls *calls);

#endif
