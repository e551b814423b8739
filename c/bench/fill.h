/* The captures whose calls are measured. */
#ifndef BENCH_FILL_H
#define BENCH_FILL_H

#include "capture.h"

/* Each fills an empty capture, with as many open streams as it is told. */
typedef void filler(struct capture *capture, unsigned streams);

/* fill_mixed.c: generated records of all kinds, right and wrong. */
filler fill_mixed;

/* fill_plain.c: one kind of work over and over. */
filler fill_information; /* INFO_REQ to each stream in turn */
filler fill_errors;      /* messages that are answered with ERROR_ACK */
filler fill_connections; /* calls ring in at stream 0, each is accepted on another one, then the peers go */
filler fill_ringing;     /* every stream has 8 calls open; one after the other is withdrawn, and another arrives */
filler fill_datagrams;   /* datagrams of 64 bytes from each stream in turn */
filler fill_frames;      /* frames of 64 bytes, each to all streams */

#endif
