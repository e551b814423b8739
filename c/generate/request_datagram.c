/* UNITDATA_REQ, to an address of the stream's own form. Its M is put behind it elsewhere. */
#include "request.h"

#include "image.h"
#include "message.h"

static void fill_datagram(struct generator *generator, unsigned stream, struct record *record)
{
    unsigned size = image_address_size(generator->table, stream);
    message_put32(record, AT_DATAGRAM_PRIORITY, pick_awkward(generator));
    message_put32(record, AT_DATAGRAM_PRIORITY + 4, pick_awkward(generator));
    uint8_t *address = request_fill_address(generator, record, size);
    put_sap(address, size, size == ADDRESS_SIZE ? pick_sap(generator) : pick_type(generator));
}

/* Odd, or reserved. */
static unsigned pick_no_sap(struct generator *generator)
{
    return dice_one_in(&generator->dice, 2) ? SAP_RESERVED : pick_sap(generator) | 1;
}

/* Under the first: that before it, a SAP in two bytes, or any. */
static unsigned pick_no_type(struct generator *generator)
{
    if (dice_one_in(&generator->dice, 3))
        return TYPE_FIRST - 1;
    return dice_one_in(&generator->dice, 2) ? pick_sap(generator) : dice_below(&generator->dice, TYPE_FIRST);
}

/* The address must be where it should. */
static void spoil_sap(struct generator *generator, unsigned stream, struct record *record)
{
    unsigned size = image_address_size(generator->table, stream);
    uint8_t *address = request_find_address(record, size);
    if (address != NULL)
        put_sap(address, size, size == ADDRESS_SIZE ? pick_no_sap(generator) : pick_no_type(generator));
}

/* The last stands more often, as the others take the address away. */
static change *const datagram_spoilers[] = {
    request_spoil_address_length, request_spoil_offset_to_early, request_spoil_offset_to_late,
    request_spoil_offset_to_wrapping, spoil_sap, spoil_sap, spoil_sap
};

const struct request request_datagram = {
    .code = UNITDATA_REQ,
    .size = DATAGRAM_SIZE,
    .states = STATE(IDLE),
    .apt = is_connectionless,
    .fill = fill_datagram,
    SPOILERS(datagram_spoilers),
};
