/* Requests without fields, and ATTACH_REQ. */
#include "request.h"

#include "image.h"
#include "message.h"

static void fill_plain(struct generator *generator, unsigned stream, struct record *record)
{
    (void)stream;
    message_finish(generator, record, CODE_SIZE);
}

static void fill_attach(struct generator *generator, unsigned stream, struct record *record)
{
    (void)stream;
    int place = pick_ppa(generator);
    message_put32(record, AT_ATTACH_PPA, place < 0 ? 1 : image_ppa_number(generator->table, (unsigned)place));
    message_finish(generator, record, ATTACH_SIZE);
}

static void spoil_ppa(struct generator *generator, unsigned stream, struct record *record)
{
    (void)stream;
    message_put32(record, AT_ATTACH_PPA, pick_unknown_ppa(generator));
}

static change *const attach_spoilers[] = { spoil_ppa };

const struct request request_info = {
    .code = INFO_REQ,
    .size = CODE_SIZE,
    .states = ALL_STATES,
    .fill = fill_plain,
};

const struct request request_token = {
    .code = TOKEN_REQ,
    .size = CODE_SIZE,
    .states = ALL_STATES,
    .fill = fill_plain,
};

const struct request request_attach = {
    .code = ATTACH_REQ,
    .size = ATTACH_SIZE,
    .states = STATE(UNATTACHED),
    .fill = fill_attach,
    SPOILERS(attach_spoilers),
};

const struct request request_detach = {
    .code = DETACH_REQ,
    .size = CODE_SIZE,
    .states = STATE(UNBOUND),
    .fill = fill_plain,
};

const struct request request_unbind = {
    .code = UNBIND_REQ,
    .size = CODE_SIZE,
    .states = STATE(IDLE),
    .fill = fill_plain,
};

const struct request request_reset = {
    .code = RESET_REQ,
    .size = CODE_SIZE,
    .states = STATE(CONNECTED),
    .fill = fill_plain,
};

const struct request request_reset_answer = {
    .code = RESET_RES,
    .size = CODE_SIZE,
    .states = STATE(PEER_RESET),
    .fill = fill_plain,
};
