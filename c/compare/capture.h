/* A capture as it is generated, call by call, and as a run of bytes. */
#ifndef COMPARE_CAPTURE_H
#define COMPARE_CAPTURE_H

#include <stddef.h>
#include <stdint.h>

#include "../generate/record.h"

enum { MOST_RECORDS = 400 };

struct originals {
    size_t count;
    struct record records[MOST_RECORDS];
};

/* A form has at most two records, or a record and as much junk, for each original one. */
struct capture {
    size_t size;
    uint8_t bytes[2 * MOST_RECORDS * LONGEST_CALL];
};

/* The capture of the seed with so many records, at most MOST_RECORDS. */
void originals_generate(struct originals *originals, uint64_t seed, size_t count);

void capture_add(struct capture *capture, const struct record *record);

#endif
