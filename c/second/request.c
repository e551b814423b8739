/* request.c - the requests, their order of errors and their state rows. */
#include "request.h"

#include "bytes.h"
#include "message.h"
#include "sap.h"

/* A request under way: stream s asks with a message. */
struct asking {
    struct table *table;
    struct stream *stream;
    unsigned s;
    const uint8_t *message;
    size_t length;
    struct outcome *outcome;
};

/*
 * A request and its state rows. Its serve function gives the errors of the
 * request's own step, having changed nothing; or it makes the change, writes
 * the records out and gives NO_ERROR.
 */
struct request {
    uint32_t code;
    size_t size;
    unsigned from_states; /* a bit for each state with a row */
    bool mode_1_only;     /* rows are for streams bound in mode 1 */
    enum dl_error (*serve)(const struct asking *asking);
};

/* The 4-byte field at a place in the message. */
static uint32_t field(const struct asking *asking, size_t offset)
{
    return get32(asking->message + offset);
}

static void send_ok(const struct asking *asking)
{
    second_send_ok_ack(asking->outcome, asking->s, field(asking, 0));
}

static enum dl_error serve_info(const struct asking *asking)
{
    second_send_info_ack(asking->outcome, asking->table, asking->s);
    return NO_ERROR;
}

static enum dl_error serve_token(const struct asking *asking)
{
    second_send_token_ack(asking->outcome, asking->s);
    return NO_ERROR;
}

static enum dl_error serve_attach(const struct asking *asking)
{
    struct ppa_number ppa = { field(asking, 4) };

    if (second_find_ppa(asking->table, ppa) == NULL)
        return BADPPA;

    asking->stream->ppa = ppa;
    asking->stream->state = UNBOUND;
    send_ok(asking);
    return NO_ERROR;
}

static enum dl_error serve_detach(const struct asking *asking)
{
    asking->stream->ppa = (struct ppa_number){ 0 };
    asking->stream->state = UNATTACHED;
    send_ok(asking);
    return NO_ERROR;
}

struct bind_request {
    uint32_t sap;
    uint32_t max_conind;
    uint16_t mode;
    uint16_t conn_mgmt;
    uint32_t xidtest;
};

static struct bind_request read_bind(const struct asking *asking)
{
    return (struct bind_request){
        .sap = field(asking, 4),
        .max_conind = field(asking, 8),
        .mode = get16(asking->message + 12),
        .conn_mgmt = get16(asking->message + 14),
        .xidtest = field(asking, 16),
    };
}

/* The asker is unbound, so a listener is another stream. */
static bool somebody_listens(const struct asking *asking, uint32_t sap)
{
    return second_find_listener(asking->table, asking->stream->ppa,
                                (uint16_t)sap) < STREAMS;
}

static enum dl_error bind_error(const struct asking *asking,
                                const struct bind_request *bind)
{
    if (bind->mode != CONNECTION && bind->mode != CONNECTIONLESS)
        return UNSUPPORTED;
    if (bind->conn_mgmt != 0)
        return UNSUPPORTED;
    if (bind->xidtest != 0)
        return NOAUTO;
    if (!second_is_sap(bind->sap) && !second_is_type(bind->sap))
        return BADADDR;
    if (bind->mode == CONNECTION && second_is_type(bind->sap))
        return UNSUPPORTED;
    if (bind->mode == CONNECTION && bind->max_conind > 0
        && somebody_listens(asking, bind->sap))
        return BOUND;
    return NO_ERROR;
}

/* The smaller of the count asked and 8; in mode 2 it is 0. */
static uint8_t count_granted(const struct bind_request *bind)
{
    if (bind->mode == CONNECTIONLESS)
        return 0;
    return bind->max_conind < INDICATIONS ? (uint8_t)bind->max_conind
                                          : INDICATIONS;
}

static enum dl_error serve_bind(const struct asking *asking)
{
    struct bind_request bind = read_bind(asking);
    enum dl_error error = bind_error(asking, &bind);

    if (error != NO_ERROR)
        return error;

    asking->stream->mode = (uint8_t)bind.mode;
    asking->stream->sap = (uint16_t)bind.sap;
    asking->stream->granted = count_granted(&bind);
    asking->stream->state = IDLE;
    second_send_bind_ack(asking->outcome, asking->table, asking->s);
    return NO_ERROR;
}

static enum dl_error serve_unbind(const struct asking *asking)
{
    asking->stream->mode = NO_MODE;
    asking->stream->sap = 0;
    asking->stream->granted = 0;
    asking->stream->state = UNBOUND;
    second_out_flush(asking->outcome, asking->s);
    send_ok(asking);
    return NO_ERROR;
}

/* The destination as that part of the message, or NULL if it is a bad one. */
static const uint8_t *destination(const struct asking *asking)
{
    const size_t fixed_size = 24;
    uint32_t length = field(asking, 4);
    uint32_t offset = field(asking, 8);
    const uint8_t *address;

    /* The message is at least as long as its fixed size, so longer than 7. */
    if (length != PEER_ADDRESS_SIZE || offset < fixed_size
        || offset > asking->length - PEER_ADDRESS_SIZE)
        return NULL;

    address = asking->message + offset;
    return address[MAC_SIZE] % 2 == 0 ? address : NULL;
}

static enum dl_error serve_connect(const struct asking *asking)
{
    uint32_t qos_length = field(asking, 12);
    const uint8_t *called;

    if (qos_length != 0)
        return BADQOSTYPE;
    called = destination(asking);
    if (called == NULL)
        return BADADDR;

    asking->stream->state = OUTGOING_PENDING;
    second_out_connect(asking->outcome, asking->s, called);
    return NO_ERROR;
}

/* Token 0 or one's own means this stream. */
static bool means_asker(const struct asking *asking, struct token token)
{
    return token.value == 0 || token.value == second_token_of(asking->s).value;
}

/* The open stream with that token, or STREAMS if there is none. */
static unsigned stream_of(const struct table *table, struct token token)
{
    unsigned s = 0;

    while (s < STREAMS
           && !(table->stream[s].open
                && second_token_of(s).value == token.value))
        s++;
    return s;
}

static enum dl_error other_carrier_error(const struct asking *asking,
                                         unsigned carrier)
{
    const struct stream *stream;

    if (carrier == STREAMS)
        return BADTOKEN;
    stream = &asking->table->stream[carrier];
    if (stream->state != IDLE)
        return OUTSTATE;
    if (stream->ppa.value != asking->stream->ppa.value
        || stream->mode == CONNECTIONLESS)
        return ACCESS;
    return NO_ERROR;
}

/* Finds the stream that is to carry the call. */
static enum dl_error find_carrier(const struct asking *asking,
                                  struct token token, unsigned *carrier)
{
    if (means_asker(asking, token)) {
        *carrier = asking->s;
        return asking->stream->indications > 1 ? PENDING : NO_ERROR;
    }
    *carrier = stream_of(asking->table, token);
    return other_carrier_error(asking, *carrier);
}

static enum dl_error serve_connect_response(const struct asking *asking)
{
    struct correlation number = { field(asking, 4) };
    struct token token = { field(asking, 8) };
    uint32_t qos_length = field(asking, 12);
    unsigned carrier;
    enum dl_error error;

    if (!second_has_indication(asking->stream, number))
        return BADCORR;
    if (qos_length != 0)
        return BADQOSTYPE;
    error = find_carrier(asking, token, &carrier);
    if (error != NO_ERROR)
        return error;

    second_lose_indication(asking->stream, number);
    /* A listener that carries the call itself is not left in 6. */
    asking->table->stream[carrier].state = CONNECTED;
    second_out_accept(asking->outcome, carrier, number);
    send_ok(asking);
    return NO_ERROR;
}

/* In state 9 a disconnect denies the call of an open indication. */
static enum dl_error deny(const struct asking *asking, uint32_t reason,
                          struct correlation number)
{
    if (!second_has_indication(asking->stream, number))
        return BADCORR;

    second_lose_indication(asking->stream, number);
    second_out_disconnect(asking->outcome, asking->s, number, reason);
    send_ok(asking);
    return NO_ERROR;
}

static enum dl_error serve_disconnect(const struct asking *asking)
{
    uint32_t reason = field(asking, 4);
    struct correlation number = { field(asking, 8) };

    if (asking->stream->state == INCOMING_PENDING)
        return deny(asking, reason, number);
    if (number.value != 0)
        return BADCORR;

    second_out_disconnect(asking->outcome, asking->s, number, reason);
    if (asking->stream->state != OUTGOING_PENDING)
        second_out_flush(asking->outcome, asking->s);
    asking->stream->state = IDLE;
    send_ok(asking);
    return NO_ERROR;
}

static enum dl_error serve_reset(const struct asking *asking)
{
    asking->stream->state = USER_RESET_PENDING;
    second_out_reset(asking->outcome, asking->s);
    return NO_ERROR;
}

static enum dl_error serve_reset_response(const struct asking *asking)
{
    asking->stream->state = CONNECTED;
    second_out_reset_answer(asking->outcome, asking->s);
    send_ok(asking);
    return NO_ERROR;
}

#define FROM(state) (1u << (state))

enum {
    EVERY_STATE = FROM(UNATTACHED) | FROM(UNBOUND) | FROM(IDLE)
        | FROM(OUTGOING_PENDING) | FROM(INCOMING_PENDING) | FROM(CONNECTED)
        | FROM(USER_RESET_PENDING) | FROM(PROVIDER_RESET_PENDING),
    DISCONNECT_STATES = FROM(OUTGOING_PENDING) | FROM(INCOMING_PENDING)
        | FROM(CONNECTED) | FROM(USER_RESET_PENDING)
        | FROM(PROVIDER_RESET_PENDING)
};

static const struct request requests[] = {
    { INFO_REQ, 4, EVERY_STATE, false, serve_info },
    { ATTACH_REQ, 8, FROM(UNATTACHED), false, serve_attach },
    { DETACH_REQ, 4, FROM(UNBOUND), false, serve_detach },
    { BIND_REQ, 20, FROM(UNBOUND), false, serve_bind },
    { UNBIND_REQ, 4, FROM(IDLE), false, serve_unbind },
    { CONNECT_REQ, 24, FROM(IDLE), true, serve_connect },
    { CONNECT_RES, 24, FROM(INCOMING_PENDING), true, serve_connect_response },
    { TOKEN_REQ, 4, EVERY_STATE, false, serve_token },
    { DISCONNECT_REQ, 12, DISCONNECT_STATES, true, serve_disconnect },
    { RESET_REQ, 4, FROM(CONNECTED), true, serve_reset },
    { RESET_RES, 4, FROM(PROVIDER_RESET_PENDING), true, serve_reset_response },
};

/* NULL if the code is not served as a request. */
static const struct request *find_request(uint32_t code)
{
    size_t count = sizeof requests / sizeof requests[0];

    for (size_t i = 0; i < count; i++)
        if (requests[i].code == code)
            return &requests[i];
    return NULL;
}

static bool is_known_but_not_supported(uint32_t code)
{
    return code == 0x0a || code == 0x15 || code == 0x1b
        || (code >= 0x1d && code <= 0x20);
}

static bool has_row(const struct request *request, const struct stream *stream)
{
    if (request->mode_1_only && stream->mode != CONNECTION)
        return false;
    return (request->from_states & FROM(stream->state)) != 0;
}

/* Serves the request, or gives the first error that applies. */
static enum dl_error serve(const struct asking *asking)
{
    uint32_t code = field(asking, 0);
    const struct request *request = find_request(code);

    if (is_known_but_not_supported(code))
        return NOTSUPPORTED;
    if (request == NULL || asking->length < request->size)
        return BADPRIM;
    if (!has_row(request, asking->stream))
        return OUTSTATE;
    return request->serve(asking);
}

void second_answer_request(struct table *table, unsigned s,
                           const uint8_t *message, size_t length,
                           struct outcome *outcome)
{
    struct asking asking = {
        .table = table,
        .stream = &table->stream[s],
        .s = s,
        .message = message,
        .length = length,
        .outcome = outcome,
    };
    enum dl_error error = serve(&asking);

    if (error != NO_ERROR)
        second_send_error_ack(outcome, s, field(&asking, 0), error);
}
