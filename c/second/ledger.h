/*
 * ledger.h - the openings of each stream, the calls that rang in at them and
 * what became of each.
 *
 * The lines are printed as the records come, so the ledger holds no more than
 * the newest opening of each stream. Its functions give false where a record
 * has no place in it: a stream that was never opened, or more open indications
 * than a stream may hold. Only a faulty provider writes such a record.
 */
#ifndef LEDGER_H
#define LEDGER_H

#include <stdbool.h>
#include <stdio.h>

#include "table.h"

/* What ends an indication, in the order of the columns. */
enum fate {
    ACCEPTED,
    DENIED,
    WITHDRAWN,
    DROPPED
};

enum {
    FATES = 4
};

struct counts {
    unsigned long long calls;
    unsigned long long fates[FATES]; /* the records of each fate */
    unsigned long long open; /* the indications that none of those ended */
};

struct indication {
    unsigned long long call; /* 1 for the opening's first */
    struct correlation number;
};

struct opening {
    unsigned long long which; /* 1 for the stream's first, 0 if never opened */
    struct counts counts;
    struct indication open[INDICATIONS]; /* oldest first */
};

struct ledger {
    FILE *out;
    struct opening newest[STREAMS];
    unsigned long long openings; /* those whose line is printed */
    struct counts total;         /* of these */
};

/*
 * Stream s is opened. If calls of its opening before are open yet, no record
 * can end them any more, and their lines come before that of the opening.
 */
bool second_note_opening(struct ledger *ledger, unsigned s);

/* A connection indication is written to stream s. */
bool second_note_call(struct ledger *ledger, unsigned s,
                      struct correlation number);

/*
 * A record of that fate is written for stream s. It is counted even if its
 * number is not open there.
 */
bool second_note_fate(struct ledger *ledger, unsigned s, enum fate fate,
                      struct correlation number);

/* The capture ends: prints what is left, and the total. */
void second_sum_up(struct ledger *ledger);

#endif
