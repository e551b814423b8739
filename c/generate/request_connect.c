/* CONNECT_REQ. */
#include "request.h"

#include <assert.h>

#include "image.h"
#include "message.h"

static bool can_connect(const uint8_t *image, unsigned stream, unsigned unused)
{
    (void)unused;
    return image_mode(image, stream) == MODE_CONNECTION;
}

static void fill_connect(struct generator *generator, unsigned stream, struct record *record)
{
    (void)stream;
    message_put32(record, AT_CONNECT_QOS_OFFSET, pick_awkward(generator));
    message_put32(record, AT_CONNECT_GROWTH, pick_awkward(generator));
    uint8_t *address = request_fill_address(generator, record, ADDRESS_SIZE);
    address[MAC_SIZE] &= 0xfe;
}

static_assert(AT_ACCEPT_QOS_LENGTH == AT_CONNECT_QOS_LENGTH, "one place for both");

void request_spoil_qos(struct generator *generator, unsigned stream, struct record *record)
{
    (void)stream;
    message_put32(record, AT_CONNECT_QOS_LENGTH, (uint32_t)1 << dice_below(&generator->dice, 32));
}

/* The address must be where it should. */
static void spoil_destination_sap(struct generator *generator, unsigned stream, struct record *record)
{
    (void)generator;
    (void)stream;
    uint8_t *address = request_find_address(record, ADDRESS_SIZE);
    if (address != NULL)
        address[MAC_SIZE] |= 1;
}

static change *const connect_spoilers[] = {
    request_spoil_qos, request_spoil_address_length, request_spoil_offset_to_early, request_spoil_offset_to_late,
    request_spoil_offset_to_wrapping, spoil_destination_sap
};

const struct request request_connect = {
    .code = CONNECT_REQ,
    .size = CONNECT_SIZE,
    .states = STATE(IDLE),
    .apt = can_connect,
    .fill = fill_connect,
    SPOILERS(connect_spoilers),
};
