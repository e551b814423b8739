/*
 * capture.h - reads a capture: records right behind one another, one call for
 * each, from a fresh table. A datagram's two records are one call.
 */
#ifndef CAPTURE_H
#define CAPTURE_H

#include <stdbool.h>
#include <stddef.h>
#include <stdint.h>
#include <stdio.h>

#include "record.h"
#include "refusal.h"
#include "second.h"
#include "table.h"

enum {
    CAPTURE_BUFFER_SIZE = 4096
};

struct capture {
    FILE *file;
    uint8_t bytes[CAPTURE_BUFFER_SIZE];
    size_t start; /* of the bytes not yet read */
    size_t end;
    bool ended; /* at a record that is cut or of an unknown kind */
    uint8_t table[SECOND_TABLE_SIZE];
};

/* A record, and what the call for it gave. The room is enough for a frame. */
struct turn {
    const uint8_t *record; /* stands in the capture until the next turn */
    enum refusal refusal;
    struct token opened; /* of the stream that the call opened, or 0 */
    uint8_t room[SECOND_FRAME_ROOM_SIZE];
    size_t size; /* of the records out */
};

void second_begin_capture(struct capture *capture, FILE *file);

/*
 * False if there is no further record to read, or reading fails: the file's
 * error indicator tells which. The record at which reading ends has its turn.
 */
bool second_next_turn(struct capture *capture, struct turn *turn);

#endif
