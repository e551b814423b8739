/* The bytes of input records: one byte of kind, then a body whose length the kind fixes. */
#ifndef GENERATE_RECORD_H
#define GENERATE_RECORD_H

#include <stdbool.h>
#include <stddef.h>
#include <stdint.h>

#include "protocol.h"

/* Offsets in records that are not messages. */
enum {
    AT_PPA = 1,
    AT_PPA_MAC = 5,
    AT_CALLED = 5,
    AT_CALLING = 12,
    AT_PEER_ADDRESS = 2,
    AT_REASON = 2,
    AT_WITHDRAWN_NUMBER = 2,
    AT_WITHDRAWN_REASON = 6,
    AT_FRAME_ADDRESS_LENGTH = 5,
    AT_FRAME_CALLED = 6,
    AT_FRAME_CALLING = 14,
    AT_FRAME_DATA_LENGTH = 22,
    AT_FRAME_DATA = 23
};

/* What one call reads: a record, or a message of code 0x07 and right behind it its M. */
struct record {
    size_t size;
    uint8_t bytes[LONGEST_CALL];
};

/* The size of a whole record of the kind, or 0 for an unknown kind. */
size_t record_size_of_kind(uint8_t kind);

bool record_is_message(const uint8_t *bytes);

/* Whether an M belongs right behind the whole message: its code is 0x07, its L 4 to 96. */
bool record_wants_data(const uint8_t *bytes);

/* Whether it is such a message without its M. */
bool record_lacks_data(const struct record *record);

/* The size of what one call reads at the start of the bytes, or 0 where reading ends there. */
size_t record_size_of_call(const uint8_t *bytes, size_t size);

uint16_t get16(const uint8_t *bytes);
uint32_t get32(const uint8_t *bytes);
void put16(uint8_t *bytes, uint16_t value);
void put32(uint8_t *bytes, uint32_t value);

/* Puts SAP or type behind the MAC of an address of so many bytes. */
void put_sap(uint8_t *address, unsigned size, unsigned sap);

#endif
