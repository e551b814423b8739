/* refusal.h - the refusal numbers. */
#ifndef REFUSAL_H
#define REFUSAL_H

enum refusal {
    SERVED = 0,
    REFUSED_ROOM = 1,      /* room under 128 bytes, for f under 4,096 */
    REFUSED_STREAM = 2,    /* stream over 15, or not open */
    REFUSED_ALL_OPEN = 3,  /* open, and all 16 are open */
    REFUSED_SHORT = 4,     /* message with L under 4 */
    REFUSED_LONG = 5,      /* message with L over 96, or data over 64 */
    REFUSED_EVENT = 6,     /* no event row, or W of a number not open there */
    REFUSED_CALLED = 7,    /* I where nobody listens, f on an unknown PPA */
    REFUSED_LISTENER = 8,  /* I whose listener can't take a call */
    REFUSED_PPA = 9,       /* G that comes too late or does not fit */
    REFUSED_RECORD = 10,   /* no record at the start, or a malformed one */
    REFUSED_TABLE = 16     /* a table that isn't sound */
};

#endif
