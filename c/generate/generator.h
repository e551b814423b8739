/* A capture in the making.
 *
 * The generator keeps a table of its own, feeds it each record it makes, and reads the table to choose the next. */
#ifndef GENERATE_GENERATOR_H
#define GENERATE_GENERATOR_H

#include <stdbool.h>
#include <stdint.h>

#include "../second/second.h"
#include "dice.h"
#include "record.h"

enum {
    PLAN_WEIGHTS = 64,
    PLAN_SAPS = 3,
    PLAN_TYPES = 2
};

/* What is drawn once for a capture, so that captures differ in more than the order of their records. */
struct plan {
    unsigned additions;      /* records at the beginning that are kept for adding PPAs */
    unsigned streams;        /* how many streams are opened at most */
    bool ends_reading;       /* the last record is cut or of an unknown kind */
    uint32_t connectionless; /* of so many binds to a SAP one is in mode 2 */
    uint8_t saps[PLAN_SAPS];
    uint16_t types[PLAN_TYPES];
    uint32_t weights[PLAN_WEIGHTS]; /* of the lines in the table of choices */
};

struct generator {
    struct dice dice;
    struct plan plan;
    uint64_t calls; /* how many the capture has */
    uint64_t made;
    struct record last;
    uint8_t table[SECOND_TABLE_SIZE];
};

#endif
