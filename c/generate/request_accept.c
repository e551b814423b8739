/* CONNECT_RES, with one or several calls open, carried by the stream itself or by another. */
#include "request.h"

#include "image.h"
#include "message.h"

static bool can_carry(const uint8_t *image, unsigned stream, unsigned listener)
{
    return stream != listener && image_is_open(image, stream) && image_state(image, stream) == IDLE &&
           image_mode(image, stream) == MODE_CONNECTION && image_ppa(image, stream) == image_ppa(image, listener);
}

/* With several calls open, one can be accepted on another stream alone. */
static bool can_accept(const uint8_t *image, unsigned listener, unsigned unused)
{
    (void)unused;
    for (unsigned stream = 0; stream < STREAMS; stream++)
        if (can_carry(image, stream, listener))
            return true;
    return image_indications(image, listener) == 1;
}

/* A stream's token is its number plus 1. */
static uint32_t token_of(unsigned stream)
{
    return stream + 1;
}

/* Token 0 means the stream itself, too. */
static uint32_t own_token(struct generator *generator, unsigned stream)
{
    return dice_one_in(&generator->dice, 2) ? 0 : token_of(stream);
}

/* Another stream's token if one can carry the call; with one call open, now and then one's own. */
static uint32_t pick_token(struct generator *generator, unsigned stream)
{
    int carrier = pick_stream_where(generator, can_carry, stream);
    bool one_open = image_indications(generator->table, stream) == 1;
    if (carrier < 0 || (one_open && dice_one_in(&generator->dice, 3)))
        return own_token(generator, stream);
    return token_of((unsigned)carrier);
}

static void fill_accept(struct generator *generator, unsigned stream, struct record *record)
{
    message_put32(record, AT_ACCEPT_NUMBER, pick_open_number(generator, stream));
    message_put32(record, AT_ACCEPT_TOKEN, pick_token(generator, stream));
    message_put32(record, AT_ACCEPT_QOS_OFFSET, pick_awkward(generator));
    message_put32(record, AT_ACCEPT_GROWTH, pick_awkward(generator));
    message_finish(generator, record, ACCEPT_SIZE);
}

static void spoil_accepted_number(struct generator *generator, unsigned stream, struct record *record)
{
    message_put32(record, AT_ACCEPT_NUMBER, pick_foreign_number(generator, stream));
}

static void spoil_token_to_own(struct generator *generator, unsigned stream, struct record *record)
{
    message_put32(record, AT_ACCEPT_TOKEN, own_token(generator, stream));
}

/* Of no open stream: over 16, of a closed stream, or one's own but for a higher bit. */
static void spoil_token_to_unknown(struct generator *generator, unsigned stream, struct record *record)
{
    uint32_t token = STREAMS + 1;
    if (dice_one_in(&generator->dice, 2))
        token = token_of(pick_no_stream(generator));
    else if (dice_one_in(&generator->dice, 2))
        token = token_of(stream) | (uint32_t)0x100 << dice_below(&generator->dice, 24);
    message_put32(record, AT_ACCEPT_TOKEN, token);
}

static void put_token(struct record *record, int carrier)
{
    if (carrier >= 0)
        message_put32(record, AT_ACCEPT_TOKEN, token_of((unsigned)carrier));
}

static bool is_busy_beside(const uint8_t *image, unsigned stream, unsigned other)
{
    return stream != other && image_is_open(image, stream) && image_state(image, stream) != IDLE;
}

static void spoil_token_to_busy(struct generator *generator, unsigned stream, struct record *record)
{
    put_token(record, pick_stream_where(generator, is_busy_beside, stream));
}

static bool is_idle_elsewhere(const uint8_t *image, unsigned stream, unsigned other)
{
    return image_is_open(image, stream) && image_state(image, stream) == IDLE &&
           image_ppa(image, stream) != image_ppa(image, other);
}

static void spoil_token_to_other_ppa(struct generator *generator, unsigned stream, struct record *record)
{
    put_token(record, pick_stream_where(generator, is_idle_elsewhere, stream));
}

static void spoil_token_to_connectionless(struct generator *generator, unsigned stream, struct record *record)
{
    put_token(record, pick_connectionless_beside(generator, stream));
}

/* Those whose meetings with the others are rare stand more often. */
static change *const accept_spoilers[] = {
    spoil_accepted_number, spoil_accepted_number, spoil_accepted_number, request_spoil_qos, request_spoil_qos,
    spoil_token_to_own, spoil_token_to_unknown, spoil_token_to_unknown, spoil_token_to_busy, spoil_token_to_busy,
    spoil_token_to_other_ppa, spoil_token_to_connectionless
};

const struct request request_accept = {
    .code = CONNECT_RES,
    .size = ACCEPT_SIZE,
    .states = STATE(RINGING),
    .apt = can_accept,
    .fill = fill_accept,
    SPOILERS(accept_spoilers),
};
