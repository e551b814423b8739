/* A capture being read: records right behind one another, from a file or from standard input, of any length. */
#ifndef HARNESS_CAPTURE_H
#define HARNESS_CAPTURE_H

#include <stdbool.h>
#include <stddef.h>
#include <stdint.h>

#include "progress.h"

enum { CAPTURE_BUFFER = 1 << 16 };

struct capture {
    const char *name; /* for messages */

    /* the record read last, with the M behind it where it is a datagram */
    const uint8_t *record;
    size_t lent;     /* bytes from the record on: all that its call reads, unless the capture ends in it */
    size_t size;     /* of what its call reads; 0 if reading ends at it, as its kind is unknown or its body cut */
    uint64_t number; /* of the record, from 1; 0 before the first */
    uint64_t place;  /* of the record's first byte in the capture, from 0 */

    int file;
    bool ended; /* no byte follows those in the buffer */
    int error;  /* errno of the read that failed, else 0 */
    struct progress progress;
    uint8_t buffer[CAPTURE_BUFFER];
};

/* Opens the file of that name; "-" is standard input. If it cannot be read, says so on standard error: false. */
bool capture_open(struct capture *capture, const char *name);

/* Goes on to the next record. Returns false if there is none: at the end, where reading ends or where a read failed. */
bool capture_next(struct capture *capture);

/* Closes the capture. If it was not read to its end, says on standard error where reading ended, and why. */
void capture_close(struct capture *capture);

#endif
