#include "message.h"

#include <string.h>

#include "pick.h"

void message_start(struct generator *generator, struct record *record, unsigned stream, uint32_t code)
{
    memset(record->bytes, 0, sizeof record->bytes);
    record->size = LONGEST_RECORD;
    record->bytes[AT_KIND] = dice_one_in(&generator->dice, 4) ? 'C' : 'P';
    record->bytes[AT_STREAM] = (uint8_t)stream;
    record->bytes[AT_LENGTH] = CODE_SIZE;
    message_put32(record, AT_CODE, code);
}

void message_put16(struct record *record, unsigned offset, uint16_t value)
{
    put16(record->bytes + AT_BLOCK + offset, value);
}

void message_put32(struct record *record, unsigned offset, uint32_t value)
{
    put32(record->bytes + AT_BLOCK + offset, value);
}

uint32_t message_get32(const struct record *record, unsigned offset)
{
    return get32(record->bytes + AT_BLOCK + offset);
}

unsigned message_length(const struct record *record)
{
    return record->bytes[AT_LENGTH];
}

void message_cut(struct record *record, unsigned length)
{
    record->bytes[AT_LENGTH] = (uint8_t)length;
    if (length < BLOCK_SIZE)
        memset(record->bytes + AT_BLOCK + length, 0, BLOCK_SIZE - length);
}

void message_finish(struct generator *generator, struct record *record, unsigned end)
{
    unsigned length = end;
    if (dice_one_in(&generator->dice, 3)) {
        length += dice_below(&generator->dice, BLOCK_SIZE - end + 1);
        pick_bytes(generator, record->bytes + AT_BLOCK + end, length - end);
    }
    record->bytes[AT_LENGTH] = (uint8_t)length;
}
