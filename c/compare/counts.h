/* Counting what was compared. */
#ifndef COMPARE_COUNTS_H
#define COMPARE_COUNTS_H

#include <stdbool.h>
#include <stdint.h>

#include "../layout.h"
#include "provider.h"

enum {
    REFUSAL_NUMBERS = 256, /* that an answer has bits for */
    ROOM_SIZES = LARGEST_ROOM + 1
};

/* Frames, and all other calls: they need different rooms. */
enum {
    OTHERS,
    FRAMES,
    NEEDS
};

struct counts {
    uint64_t numbers; /* of a SAP field */
    uint64_t captures;
    uint64_t forms;
    uint64_t calls;
    uint64_t refusals[REFUSAL_NUMBERS]; /* calls by the library's refusal number, 0 for those served */
    uint64_t rooms[NEEDS][ROOM_SIZES];  /* calls by the size of the room */
    uint64_t datagrams;                 /* calls that sent one */
    uint64_t wrong_datagrams;           /* calls that answered one with DL_UDERROR_IND */
    uint64_t datagrams_cut;             /* datagrams that were cut at each byte */
    uint64_t frames[STREAMS + 1];       /* frames served by how many streams they came to */
    uint64_t damaged_refused;           /* calls on a damaged image that were refused for it */
    uint64_t damaged_taken;             /* those that were not */
    uint64_t counters_moved;
    uint64_t differences;
};

/* The outcome is the library's. */
void counts_add_call(struct counts *counts, const struct lending *lending, const struct outcome *outcome);
void counts_add_damaged(struct counts *counts, uint32_t answer);

/* Prints everything, the sum in the last line. */
void counts_print(const struct counts *counts);

/* Whether calls reached each size of room near what they need, each refusal number, datagrams right and wrong, one cut
 * at each byte, and frames to no stream and to several. Prints what is missing. */
bool counts_are_full(const struct counts *counts);

#endif
