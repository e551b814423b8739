/* DISCONNECT_REQ: with an open number it denies a call, with 0 it ends one. */
#include "request.h"

#include "message.h"

static void fill_disconnect(struct generator *generator, unsigned stream, struct record *record)
{
    message_put32(record, AT_DISCONNECT_REASON, pick_awkward(generator));
    message_put32(record, AT_DISCONNECT_NUMBER, pick_open_number(generator, stream));
    message_finish(generator, record, DISCONNECT_SIZE);
}

static void spoil_disconnected_number(struct generator *generator, unsigned stream, struct record *record)
{
    message_put32(record, AT_DISCONNECT_NUMBER, pick_foreign_number(generator, stream));
}

static change *const disconnect_spoilers[] = { spoil_disconnected_number };

const struct request request_disconnect = {
    .code = DISCONNECT_REQ,
    .size = DISCONNECT_SIZE,
    .states = STATE(CALLING) | STATE(RINGING) | UP_STATES,
    .fill = fill_disconnect,
    SPOILERS(disconnect_spoilers),
};
