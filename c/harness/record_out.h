/* A record that a call wrote into its room. */
#ifndef HARNESS_RECORD_OUT_H
#define HARNESS_RECORD_OUT_H

#include <stddef.h>
#include <stdint.h>

struct record_out {
    uint8_t kind;
    uint8_t stream;
    const uint8_t *fields; /* behind the stream; of a message, its block up to L */
    size_t fields_size;
    size_t size; /* of the whole record: the next stands right behind it */
};

/* Reads the record that stands at the start of the bytes. */
struct record_out record_out_read(const uint8_t *bytes);

/* The four-byte number at that place of its fields. */
uint32_t record_out_number(const struct record_out *record, size_t place);

#endif
