#include "record.h"

#include <assert.h>

static_assert(AT_FRAME_DATA + DATA_SIZE == FRAME_SIZE, "a frame ends with its data");

size_t record_size_of_kind(uint8_t kind)
{
    switch (kind) {
    case 'G':
        return 1 + 4 + MAC_SIZE;
    case 'O':
        return 1;
    case 'X':
    case 'S':
        return 1 + 1;
    case 'P':
    case 'C':
        return LONGEST_RECORD;
    case 'I':
        return 1 + 4 + ADDRESS_SIZE + ADDRESS_SIZE;
    case 'A':
        return 1 + 1 + ADDRESS_SIZE;
    case 'D':
    case 'R':
        return 1 + 1 + 4;
    case 'W':
        return 1 + 1 + 4 + 4;
    case 'M':
        return DATA_RECORD_SIZE;
    case 'f':
        return FRAME_SIZE;
    default:
        return 0;
    }
}

bool record_is_message(const uint8_t *bytes)
{
    return bytes[AT_KIND] == 'P' || bytes[AT_KIND] == 'C';
}

bool record_wants_data(const uint8_t *bytes)
{
    return record_is_message(bytes) && bytes[AT_LENGTH] >= CODE_SIZE && bytes[AT_LENGTH] <= BLOCK_SIZE &&
           get32(bytes + AT_BLOCK + AT_CODE) == UNITDATA_REQ;
}

bool record_lacks_data(const struct record *record)
{
    return record->size == LONGEST_RECORD && record_wants_data(record->bytes);
}

/* Whether the whole M of the same stream stands right behind the whole message. */
static bool has_data(const uint8_t *bytes, size_t size)
{
    const uint8_t *behind = bytes + LONGEST_RECORD;
    return size >= LONGEST_CALL && behind[AT_KIND] == 'M' && behind[AT_STREAM] == bytes[AT_STREAM];
}

size_t record_size_of_call(const uint8_t *bytes, size_t size)
{
    size_t whole = size == 0 ? 0 : record_size_of_kind(bytes[AT_KIND]);
    if (whole == 0 || whole > size)
        return 0;
    return record_wants_data(bytes) && has_data(bytes, size) ? LONGEST_CALL : whole;
}

uint16_t get16(const uint8_t *bytes)
{
    return (uint16_t)(bytes[0] << 8 | bytes[1]);
}

uint32_t get32(const uint8_t *bytes)
{
    return (uint32_t)get16(bytes) << 16 | get16(bytes + 2);
}

void put16(uint8_t *bytes, uint16_t value)
{
    bytes[0] = (uint8_t)(value >> 8);
    bytes[1] = (uint8_t)value;
}

void put32(uint8_t *bytes, uint32_t value)
{
    put16(bytes, (uint16_t)(value >> 16));
    put16(bytes + 2, (uint16_t)value);
}

void put_sap(uint8_t *address, unsigned size, unsigned sap)
{
    if (size == ADDRESS_SIZE)
        address[MAC_SIZE] = (uint8_t)sap;
    else
        put16(address + MAC_SIZE, (uint16_t)sap);
}
