/* A record that a call wrote into its room. */
#include "record_out.h"

#include "../layout.h"

enum { AT_FIELDS = AT_STREAM + 1 }; /* of a record that is no message */

enum { LENGTH_SIZE = 1 }; /* of a length, which is a field of u and M */

static size_t size_of_fields(uint8_t kind)
{
    switch (kind) {
    case 'c':
        return ADDRESS_SIZE; /* called */
    case 'a':
        return NUMBER_SIZE; /* correlation */
    case 'd':
        return 4 + 4; /* correlation, reason */
    case 'u':
        return LENGTH_SIZE + TYPE_ADDRESS_SIZE;
    case 'M':
        return LENGTH_SIZE + DATA_SIZE;
    default:
        return 0; /* F, r and s */
    }
}

struct record_out record_out_read(const uint8_t *bytes)
{
    struct record_out record = { .kind = bytes[AT_KIND], .stream = bytes[AT_STREAM] };
    if (record.kind == 'P' || record.kind == 'C') {
        record.fields = bytes + AT_BLOCK;
        record.fields_size = bytes[AT_LENGTH];
        record.size = LONGEST_RECORD;
    } else {
        record.fields = bytes + AT_FIELDS;
        record.fields_size = size_of_fields(record.kind);
        record.size = AT_FIELDS + record.fields_size;
    }
    return record;
}

uint32_t record_out_number(const struct record_out *record, size_t place)
{
    const uint8_t *bytes = record->fields + place;
    return (uint32_t)bytes[0] << 24 | (uint32_t)bytes[1] << 16 | (uint32_t)bytes[2] << 8 | bytes[3];
}
