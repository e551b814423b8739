/* BIND_REQ, to SAPs and Ethernet types, in modes 1 and 2. */
#include "request.h"

#include "image.h"
#include "message.h"

static uint32_t pick_max_conind(struct generator *generator)
{
    switch (dice_below(&generator->dice, 6)) {
    case 0:
        return 0;
    case 1:
        return INDICATIONS;
    case 2:
        return INDICATIONS + 1 + dice_below(&generator->dice, 4);
    case 3:
        return pick_awkward(generator);
    default:
        return 1 + dice_below(&generator->dice, 4);
    }
}

static bool listens_beside(const uint8_t *image, unsigned stream, unsigned other)
{
    return stream != other && image_granted(image, stream) > 0 && image_ppa(image, stream) == image_ppa(image, other);
}

/* Where another stream listens for the same PPA, half the streams do not, so that they can carry its calls. */
static uint32_t pick_max_conind_beside(struct generator *generator, unsigned stream)
{
    int listener = pick_stream_where(generator, listens_beside, stream);
    if (listener >= 0 && dice_one_in(&generator->dice, 2))
        return 0;
    return pick_max_conind(generator);
}

/* Half the time that of another connectionless stream of the PPA, so that frames come to several. */
static unsigned pick_shared_sap(struct generator *generator, unsigned stream, unsigned otherwise)
{
    int beside = pick_connectionless_beside(generator, stream);
    if (beside < 0 || dice_one_in(&generator->dice, 2))
        return otherwise;
    return image_sap(generator->table, (unsigned)beside);
}

static void fill_bind(struct generator *generator, unsigned stream, struct record *record)
{
    bool with_type = dice_one_in(&generator->dice, 6);
    bool connectionless = with_type || dice_one_in(&generator->dice, generator->plan.connectionless);
    unsigned sap = with_type ? pick_type(generator) : pick_sap(generator);
    if (connectionless)
        sap = pick_shared_sap(generator, stream, sap);
    message_put32(record, AT_BIND_SAP, sap);
    message_put32(record, AT_BIND_MAX_CONIND, pick_max_conind_beside(generator, stream));
    message_put16(record, AT_BIND_MODE, connectionless ? MODE_CONNECTIONLESS : MODE_CONNECTION);
    message_finish(generator, record, BIND_SIZE);
}

static void spoil_mode(struct generator *generator, unsigned stream, struct record *record)
{
    static const uint16_t modes[] = { 0, 3, 4, 0x0100, 0x0101, 0x0200, 0xffff };
    (void)stream;
    message_put16(record, AT_BIND_MODE, modes[dice_below(&generator->dice, LENGTH_OF(modes))]);
}

static void spoil_conn_mgmt(struct generator *generator, unsigned stream, struct record *record)
{
    (void)stream;
    message_put16(record, AT_BIND_CONN_MGMT, (uint16_t)(1u << dice_below(&generator->dice, 16)));
}

static void spoil_xidtest(struct generator *generator, unsigned stream, struct record *record)
{
    (void)stream;
    message_put32(record, AT_BIND_XIDTEST, (uint32_t)1 << dice_below(&generator->dice, 32));
}

static void spoil_sap_to_odd(struct generator *generator, unsigned stream, struct record *record)
{
    (void)stream;
    message_put32(record, AT_BIND_SAP, pick_sap(generator) | 1);
}

static void spoil_sap_to_reserved(struct generator *generator, unsigned stream, struct record *record)
{
    (void)generator;
    (void)stream;
    message_put32(record, AT_BIND_SAP, SAP_RESERVED);
}

/* Neither a SAP nor a type. */
static void spoil_sap_to_gap(struct generator *generator, unsigned stream, struct record *record)
{
    (void)stream;
    uint32_t sap = SAP_END + dice_below(&generator->dice, TYPE_FIRST - SAP_END);
    if (dice_one_in(&generator->dice, 3))
        sap = dice_one_in(&generator->dice, 2) ? SAP_END : TYPE_FIRST - 1;
    message_put32(record, AT_BIND_SAP, sap);
}

/* Under its two upper bytes it is a number that might be bound. */
static void spoil_sap_to_over(struct generator *generator, unsigned stream, struct record *record)
{
    (void)stream;
    uint32_t lower = dice_one_in(&generator->dice, 2) ? pick_type(generator) : pick_sap(generator);
    message_put32(record, AT_BIND_SAP, (uint32_t)0x10000 << dice_below(&generator->dice, 16) | lower);
}

static void spoil_sap_to_type(struct generator *generator, unsigned stream, struct record *record)
{
    (void)stream;
    message_put32(record, AT_BIND_SAP, pick_type(generator));
    message_put16(record, AT_BIND_MODE, MODE_CONNECTION);
}

/* The SAP of another stream that listens for the same PPA. */
static void spoil_sap_to_taken(struct generator *generator, unsigned stream, struct record *record)
{
    int listener = pick_stream_where(generator, listens_beside, stream);
    if (listener < 0)
        return;
    message_put32(record, AT_BIND_SAP, image_sap(generator->table, (unsigned)listener));
    message_put32(record, AT_BIND_MAX_CONIND, pick_max_conind(generator));
    message_put16(record, AT_BIND_MODE, MODE_CONNECTION);
}

/* The last stands twice, as it does not always find a listener. */
static change *const bind_spoilers[] = {
    spoil_mode, spoil_conn_mgmt, spoil_xidtest, spoil_sap_to_odd, spoil_sap_to_reserved, spoil_sap_to_gap,
    spoil_sap_to_over, spoil_sap_to_type, spoil_sap_to_taken, spoil_sap_to_taken
};

const struct request request_bind = {
    .code = BIND_REQ,
    .size = BIND_SIZE,
    .states = STATE(UNBOUND),
    .fill = fill_bind,
    SPOILERS(bind_spoilers),
};
