/* message.c - the messages up, each built field by field and then sent. */
#include "message.h"

#include <string.h>

#include "bytes.h"

enum {
    MAX_SDU = 1497,
    UNBOUND_MODE = 3, /* INFO_ACK's mode while unbound */
    STYLE_2 = 0x0501,
    DLPI_VERSION = 2,
    INFO_ACK_SIZE = 76, /* the fixed sizes, before the addresses */
    BIND_ACK_SIZE = 24,
    CONNECT_IND_SIZE = 36,
    CONNECT_CON_SIZE = 24,
    UNITDATA_IND_SIZE = 24,
    ORIGINATOR = 0x0701 /* of every disconnect and reset */
};

static const uint8_t broadcast[MAC_SIZE] = {
    0xff, 0xff, 0xff, 0xff, 0xff, 0xff
};

struct message {
    uint8_t bytes[BLOCK_SIZE];
    size_t length;
};

static void add_field(struct message *message, uint32_t value)
{
    put32(message->bytes + message->length, value);
    message->length += 4;
}

static void add_part(struct message *message, const uint8_t *part,
                     size_t length)
{
    memcpy(message->bytes + message->length, part, length);
    message->length += length;
}

static struct message begin(enum message_code code)
{
    struct message message = { .length = 0 };

    add_field(&message, code);
    return message;
}

/* Codes 0x03 to 0x06 and 0x12 go up as M_PCPROTO, the others as M_PROTO. */
static enum kind_of_message kind_of(uint32_t code)
{
    bool acknowledges = (code >= INFO_ACK && code <= OK_ACK)
        || code == TOKEN_ACK;

    return acknowledges ? M_PCPROTO : M_PROTO;
}

static void send_up(struct outcome *outcome, unsigned s,
                    const struct message *message)
{
    second_out_message(outcome, kind_of(get32(message->bytes)), s,
                       message->bytes, message->length);
}

/* The address of a bound stream. */
static size_t address_of(const struct table *table, const struct stream *stream,
                         uint8_t address[LONGEST_ADDRESS_SIZE])
{
    return second_address(second_find_ppa(table, stream->ppa)->mac,
                          stream->sap, address);
}

/* INFO_ACK's fields that tell of the binding. */
struct binding {
    uint32_t sap_length;
    uint32_t mode;
    uint32_t address_offset;
    uint8_t address[LONGEST_ADDRESS_SIZE];
    size_t address_length;
};

static struct binding binding_of(const struct table *table,
                                 const struct stream *stream)
{
    struct binding binding = { .mode = UNBOUND_MODE };

    if (stream->mode != NO_MODE) {
        /* Minus 1 or minus 2: the SAP stands behind the MAC. */
        binding.sap_length = 0 - (uint32_t)second_sap_length(stream->sap);
        binding.mode = stream->mode;
        binding.address_offset = INFO_ACK_SIZE;
        binding.address_length = address_of(table, stream, binding.address);
    }
    return binding;
}

/* The public header's numbers of the manual's states 0 to 6. */
static const uint32_t header_states[] = {
    4, /* unattached */
    5, /* attach pending */
    6, /* detach pending */
    0, /* unbound */
    1, /* bind pending */
    2, /* unbind pending */
    3, /* idle */
};

/*
 * INFO_ACK alone shows the public header's state numbers. From 7 on they are
 * the manual's.
 */
static uint32_t header_state(uint8_t state)
{
    size_t count = sizeof header_states / sizeof header_states[0];

    return state < count ? header_states[state] : state;
}

void second_send_info_ack(struct outcome *outcome, const struct table *table,
                          unsigned s)
{
    const struct stream *stream = &table->stream[s];
    struct binding binding = binding_of(table, stream);
    struct message message = begin(INFO_ACK);

    add_field(&message, MAX_SDU);
    add_field(&message, 0); /* min SDU */
    add_field(&message, (uint32_t)binding.address_length);
    add_field(&message, 0); /* MAC type */
    add_field(&message, 0); /* reserved */
    add_field(&message, header_state(stream->state));
    add_field(&message, binding.sap_length);
    add_field(&message, binding.mode);
    add_field(&message, 0); /* QOS length */
    add_field(&message, 0); /* QOS offset */
    add_field(&message, 0); /* QOS range length */
    add_field(&message, 0); /* QOS range offset */
    add_field(&message, STYLE_2);
    add_field(&message, binding.address_offset);
    add_field(&message, DLPI_VERSION);
    add_field(&message, sizeof broadcast);
    add_field(&message, (uint32_t)(INFO_ACK_SIZE + binding.address_length));
    add_field(&message, 0); /* growth */
    add_part(&message, binding.address, binding.address_length);
    add_part(&message, broadcast, sizeof broadcast);
    send_up(outcome, s, &message);
}

void second_send_bind_ack(struct outcome *outcome, const struct table *table,
                          unsigned s)
{
    const struct stream *stream = &table->stream[s];
    uint8_t address[LONGEST_ADDRESS_SIZE];
    size_t address_length = address_of(table, stream, address);
    struct message message = begin(BIND_ACK);

    add_field(&message, stream->sap);
    add_field(&message, (uint32_t)address_length);
    add_field(&message, BIND_ACK_SIZE);
    add_field(&message, stream->granted);
    add_field(&message, 0); /* xidtest */
    add_part(&message, address, address_length);
    send_up(outcome, s, &message);
}

void second_send_error_ack(struct outcome *outcome, unsigned s,
                           uint32_t request_code, enum dl_error error)
{
    struct message message = begin(ERROR_ACK);

    add_field(&message, request_code);
    add_field(&message, error);
    add_field(&message, 0); /* system error */
    send_up(outcome, s, &message);
}

void second_send_ok_ack(struct outcome *outcome, unsigned s,
                        uint32_t request_code)
{
    struct message message = begin(OK_ACK);

    add_field(&message, request_code);
    send_up(outcome, s, &message);
}

void second_send_connect_ind(struct outcome *outcome, unsigned s,
                             struct correlation number,
                             const uint8_t called[PEER_ADDRESS_SIZE],
                             const uint8_t calling[PEER_ADDRESS_SIZE])
{
    struct message message = begin(CONNECT_IND);

    add_field(&message, number.value);
    add_field(&message, PEER_ADDRESS_SIZE);
    add_field(&message, CONNECT_IND_SIZE);
    add_field(&message, PEER_ADDRESS_SIZE);
    add_field(&message, CONNECT_IND_SIZE + PEER_ADDRESS_SIZE);
    add_field(&message, 0); /* QOS length */
    add_field(&message, 0); /* QOS offset */
    add_field(&message, 0); /* growth */
    add_part(&message, called, PEER_ADDRESS_SIZE);
    add_part(&message, calling, PEER_ADDRESS_SIZE);
    send_up(outcome, s, &message);
}

void second_send_connect_con(struct outcome *outcome, unsigned s,
                             const uint8_t address[PEER_ADDRESS_SIZE])
{
    struct message message = begin(CONNECT_CON);

    add_field(&message, PEER_ADDRESS_SIZE);
    add_field(&message, CONNECT_CON_SIZE);
    add_field(&message, 0); /* QOS length */
    add_field(&message, 0); /* QOS offset */
    add_field(&message, 0); /* growth */
    add_part(&message, address, PEER_ADDRESS_SIZE);
    send_up(outcome, s, &message);
}

void second_send_token_ack(struct outcome *outcome, unsigned s)
{
    struct message message = begin(TOKEN_ACK);

    add_field(&message, second_token_of(s).value);
    send_up(outcome, s, &message);
}

void second_send_disconnect_ind(struct outcome *outcome, unsigned s,
                                uint32_t reason, struct correlation number)
{
    struct message message = begin(DISCONNECT_IND);

    add_field(&message, ORIGINATOR);
    add_field(&message, reason);
    add_field(&message, number.value);
    send_up(outcome, s, &message);
}

void second_send_reset_ind(struct outcome *outcome, unsigned s, uint32_t reason)
{
    struct message message = begin(RESET_IND);

    add_field(&message, ORIGINATOR);
    add_field(&message, reason);
    send_up(outcome, s, &message);
}

void second_send_reset_con(struct outcome *outcome, unsigned s)
{
    struct message message = begin(RESET_CON);

    send_up(outcome, s, &message);
}

void second_send_unitdata_ind(struct outcome *outcome, unsigned s,
                              const uint8_t *called, const uint8_t *calling,
                              size_t address_length)
{
    struct message message = begin(UNITDATA_IND);

    add_field(&message, (uint32_t)address_length);
    add_field(&message, UNITDATA_IND_SIZE);
    add_field(&message, (uint32_t)address_length);
    add_field(&message, (uint32_t)(UNITDATA_IND_SIZE + address_length));
    add_field(&message, 0); /* group flag */
    add_part(&message, called, address_length);
    add_part(&message, calling, address_length);
    send_up(outcome, s, &message);
}

/* It carries no address. Its errors stand the other way round in ERROR_ACK. */
void second_send_uderror_ind(struct outcome *outcome, unsigned s,
                             enum dl_error error)
{
    struct message message = begin(UDERROR_IND);

    add_field(&message, 0); /* address length */
    add_field(&message, 0); /* address offset */
    add_field(&message, 0); /* system error */
    add_field(&message, error);
    send_up(outcome, s, &message);
}
