/* The address of CONNECT_REQ and UNITDATA_REQ, anywhere behind the fixed fields, and ways to spoil where it is. */
#include "request.h"

#include "image.h"
#include "message.h"

static unsigned fixed_size(const struct record *record)
{
    return message_get32(record, AT_CODE) == CONNECT_REQ ? CONNECT_SIZE : DATAGRAM_SIZE;
}

uint8_t *request_fill_address(struct generator *generator, struct record *record, unsigned size)
{
    unsigned fixed = fixed_size(record);
    unsigned offset = fixed;
    if (dice_one_in(&generator->dice, 2))
        offset += dice_below(&generator->dice, BLOCK_SIZE - size - fixed + 1);
    message_put32(record, AT_ADDRESS_LENGTH, size);
    message_put32(record, AT_ADDRESS_OFFSET, offset);
    pick_bytes(generator, record->bytes + AT_BLOCK + fixed, offset + size - fixed);
    message_finish(generator, record, offset + size);
    return record->bytes + AT_BLOCK + offset;
}

uint8_t *request_find_address(struct record *record, unsigned size)
{
    uint32_t offset = message_get32(record, AT_ADDRESS_OFFSET);
    if (offset < fixed_size(record) || offset > message_length(record) - size)
        return NULL;
    return record->bytes + AT_BLOCK + offset;
}

/* One that is nearly right, that of the other form, or any. */
void request_spoil_address_length(struct generator *generator, unsigned stream, struct record *record)
{
    uint32_t right = image_address_size(generator->table, stream);
    uint32_t length = pick_near(generator, right);
    switch (dice_below(&generator->dice, 3)) {
    case 0:
        length = ADDRESS_SIZE + TYPE_ADDRESS_SIZE - right;
        break;
    case 1:
        length = pick_awkward(generator);
        break;
    }
    message_put32(record, AT_ADDRESS_LENGTH, length);
}

void request_spoil_offset_to_early(struct generator *generator, unsigned stream, struct record *record)
{
    (void)stream;
    uint32_t offset = dice_below(&generator->dice, fixed_size(record));
    if (dice_one_in(&generator->dice, 4))
        offset = fixed_size(record) - 1;
    message_put32(record, AT_ADDRESS_OFFSET, offset);
}

/* From one byte too far to a number that is right only in its lower bytes. */
void request_spoil_offset_to_late(struct generator *generator, unsigned stream, struct record *record)
{
    uint32_t too_far = message_length(record) - image_address_size(generator->table, stream) + 1;
    switch (dice_below(&generator->dice, 3)) {
    case 0:
        break;
    case 1:
        too_far += dice_below(&generator->dice, BLOCK_SIZE);
        break;
    default:
        too_far = fixed_size(record) | (uint32_t)0x100 << dice_below(&generator->dice, 24);
        break;
    }
    message_put32(record, AT_ADDRESS_OFFSET, too_far);
}

/* The sum of offset and length is past 32 bits. */
void request_spoil_offset_to_wrapping(struct generator *generator, unsigned stream, struct record *record)
{
    uint32_t size = image_address_size(generator->table, stream);
    uint32_t back = dice_one_in(&generator->dice, 2) ? 0 : dice_below(&generator->dice, size);
    message_put32(record, AT_ADDRESS_OFFSET, UINT32_MAX - back);
}
