/* A capture in memory. Where each record starts is known beforehand, so that only calls are timed. */
#ifndef BENCH_CAPTURE_H
#define BENCH_CAPTURE_H

#include <stdbool.h>
#include <stddef.h>
#include <stdint.h>

#include "../generate/record.h"

enum { CAPTURE_CALLS = 20000 };

struct capture {
    size_t calls;
    size_t starts[CAPTURE_CALLS + 1]; /* of each record, and behind the last one */
    uint8_t bytes[CAPTURE_CALLS * LONGEST_CALL];
};

void capture_clear(struct capture *capture);

/* Adds what one call reads, unless the capture is full. */
void capture_add(struct capture *capture, const uint8_t *record, size_t size);

bool capture_is_full(const struct capture *capture);

/* The bytes that the call reads, and how many they are. */
const uint8_t *capture_record(const struct capture *capture, size_t call);
size_t capture_record_size(const struct capture *capture, size_t call);

size_t capture_size(const struct capture *capture);

#endif
