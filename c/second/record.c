/* record.c - the records in, and the records out of one call. */
#include "record.h"

#include <string.h>

#include "bytes.h"
#include "message.h"

/* Sizes of the parts of records. */
enum {
    KIND = 1,
    STREAM = 1,
    LENGTH = 1,
    NUMBER = 4 /* a PPA, a correlation or a reason */
};

/* Where the body of a frame holds what. */
enum {
    FRAME_PPA = 0,
    FRAME_ADDRESS_LENGTH = FRAME_PPA + NUMBER,
    FRAME_CALLED = FRAME_ADDRESS_LENGTH + LENGTH,
    FRAME_CALLING = FRAME_CALLED + LONGEST_ADDRESS_SIZE,
    FRAME_DATA = FRAME_CALLING + LONGEST_ADDRESS_SIZE,
    FRAME_SIZE = FRAME_DATA + LENGTH + DATA_SIZE
};

/* The size of a record in, its kind included; 0 if the kind is unknown. */
static size_t size_in(uint8_t kind)
{
    switch (kind) {
    case ADD_PPA:
        return KIND + NUMBER + MAC_SIZE;
    case OPEN:
        return KIND;
    case CLOSE:
    case RESET_CONFIRMED:
        return KIND + STREAM;
    case M_PROTO:
    case M_PCPROTO:
        return MESSAGE_RECORD_SIZE;
    case M_DATA:
        return DATA_RECORD_SIZE;
    case CALL_ARRIVES:
        return KIND + NUMBER + PEER_ADDRESS_SIZE + PEER_ADDRESS_SIZE;
    case PEER_ACCEPTED:
        return KIND + STREAM + PEER_ADDRESS_SIZE;
    case PEER_GONE:
    case PEER_RESET:
        return KIND + STREAM + NUMBER;
    case CALL_WITHDRAWN:
        return KIND + STREAM + NUMBER + NUMBER;
    case FRAME_ARRIVES:
        return KIND + FRAME_SIZE;
    default:
        return 0;
    }
}

/* True if a whole M with the same stream stands right behind the P or C. */
static bool has_its_data(const uint8_t *record, size_t record_len)
{
    const uint8_t *behind = record + MESSAGE_RECORD_SIZE;

    return record_len >= PAIR_SIZE && behind[0] == M_DATA
        && behind[KIND] == record[KIND + MESSAGE_STREAM];
}

uint32_t second_record_size(const uint8_t *record, size_t record_len)
{
    size_t size;

    if (record_len == 0)
        return 0;
    size = size_in(record[0]);
    if (size > record_len)
        return 0;
    if (second_is_datagram(record) && has_its_data(record, record_len))
        return PAIR_SIZE;
    return (uint32_t)size;
}

bool second_is_message(uint8_t kind)
{
    return kind == M_PROTO || kind == M_PCPROTO;
}

bool second_names_stream(uint8_t kind)
{
    return kind != ADD_PPA && kind != OPEN && kind != CALL_ARRIVES
        && kind != FRAME_ARRIVES;
}

bool second_is_datagram(const uint8_t *record)
{
    const uint8_t *body = record + KIND;

    return second_is_message(record[0])
        && body[MESSAGE_LENGTH] >= 4 && body[MESSAGE_LENGTH] <= BLOCK_SIZE
        && get32(body + MESSAGE_BLOCK) == UNITDATA_REQ;
}

/* A length and the data right behind it. */
static struct data data_at(const uint8_t *length)
{
    return (struct data){ .length = *length, .bytes = length + LENGTH };
}

struct data second_data_behind(const uint8_t *record)
{
    return data_at(record + MESSAGE_RECORD_SIZE + KIND + STREAM);
}

struct frame second_read_frame(const uint8_t *body)
{
    return (struct frame){
        .ppa = { get32(body + FRAME_PPA) },
        .address_length = body[FRAME_ADDRESS_LENGTH],
        .called = body + FRAME_CALLED,
        .calling = body + FRAME_CALLING,
        .data = data_at(body + FRAME_DATA),
    };
}

/* A length over the field's size leaves no padding to test. */
static bool padding_is_nonzero(const uint8_t *field, size_t size, size_t length)
{
    return length <= size && !all_zero(field + length, size - length);
}

static bool data_is_malformed(struct data data)
{
    return padding_is_nonzero(data.bytes, DATA_SIZE, data.length);
}

static bool message_is_malformed(const uint8_t *record, size_t size)
{
    const uint8_t *body = record + KIND;

    if (padding_is_nonzero(body + MESSAGE_BLOCK, BLOCK_SIZE,
                           body[MESSAGE_LENGTH]))
        return true;
    if (!second_is_datagram(record))
        return false;
    return size != PAIR_SIZE || data_is_malformed(second_data_behind(record));
}

static bool address_is_malformed(const uint8_t *address, size_t length)
{
    if (length != PEER_ADDRESS_SIZE && length != LONGEST_ADDRESS_SIZE)
        return true;
    return padding_is_nonzero(address, LONGEST_ADDRESS_SIZE, length);
}

static bool frame_is_malformed(struct frame frame)
{
    return address_is_malformed(frame.called, frame.address_length)
        || address_is_malformed(frame.calling, frame.address_length)
        || data_is_malformed(frame.data);
}

bool second_is_malformed(const uint8_t *record, size_t size)
{
    switch (record[0]) {
    case M_PROTO:
    case M_PCPROTO:
        return message_is_malformed(record, size);
    case M_DATA: /* It stands by itself: a datagram starts with P or C. */
        return true;
    case FRAME_ARRIVES:
        return frame_is_malformed(second_read_frame(record + KIND));
    default:
        return false;
    }
}

size_t second_record_out_size(uint8_t kind)
{
    switch (kind) {
    case M_PROTO:
    case M_PCPROTO:
        return MESSAGE_RECORD_SIZE;
    case M_DATA:
        return DATA_RECORD_SIZE;
    case DATAGRAM:
        return KIND + STREAM + LENGTH + LONGEST_ADDRESS_SIZE;
    case CONNECT:
        return KIND + STREAM + PEER_ADDRESS_SIZE;
    case ACCEPT:
        return KIND + STREAM + NUMBER;
    case DISCONNECT:
        return KIND + STREAM + NUMBER + NUMBER;
    default: /* F, r and s */
        return KIND + STREAM;
    }
}

static void add_bytes(struct outcome *outcome, const uint8_t *bytes,
                      size_t count)
{
    memcpy(outcome->room + outcome->size, bytes, count);
    outcome->size += count;
}

static void add_byte(struct outcome *outcome, uint8_t byte)
{
    add_bytes(outcome, &byte, 1);
}

static void add_number(struct outcome *outcome, uint32_t value)
{
    uint8_t bytes[NUMBER];

    put32(bytes, value);
    add_bytes(outcome, bytes, NUMBER);
}

/* Each record out starts with its kind and a stream. */
static void add_head(struct outcome *outcome, uint8_t kind, unsigned s)
{
    add_byte(outcome, kind);
    add_byte(outcome, (uint8_t)s);
}

void second_out_message(struct outcome *outcome, enum kind_of_message kind,
                        unsigned s, const uint8_t *message, size_t length)
{
    uint8_t block[BLOCK_SIZE] = { 0 };

    memcpy(block, message, length);
    add_head(outcome, (uint8_t)kind, s);
    add_byte(outcome, (uint8_t)length);
    add_bytes(outcome, block, BLOCK_SIZE);
}

void second_out_flush(struct outcome *outcome, unsigned s)
{
    add_head(outcome, FLUSH, s);
}

void second_out_connect(struct outcome *outcome, unsigned s,
                        const uint8_t called[PEER_ADDRESS_SIZE])
{
    add_head(outcome, CONNECT, s);
    add_bytes(outcome, called, PEER_ADDRESS_SIZE);
}

void second_out_accept(struct outcome *outcome, unsigned carrier,
                       struct correlation number)
{
    add_head(outcome, ACCEPT, carrier);
    add_number(outcome, number.value);
}

void second_out_disconnect(struct outcome *outcome, unsigned s,
                           struct correlation number, uint32_t reason)
{
    add_head(outcome, DISCONNECT, s);
    add_number(outcome, number.value);
    add_number(outcome, reason);
}

void second_out_reset(struct outcome *outcome, unsigned s)
{
    add_head(outcome, RESET, s);
}

void second_out_reset_answer(struct outcome *outcome, unsigned s)
{
    add_head(outcome, RESET_ANSWER, s);
}

void second_out_datagram(struct outcome *outcome, unsigned s,
                         const uint8_t *address, size_t length)
{
    uint8_t padded[LONGEST_ADDRESS_SIZE] = { 0 };

    memcpy(padded, address, length);
    add_head(outcome, DATAGRAM, s);
    add_byte(outcome, (uint8_t)length);
    add_bytes(outcome, padded, LONGEST_ADDRESS_SIZE);
}

void second_out_data(struct outcome *outcome, unsigned s, struct data data)
{
    add_head(outcome, M_DATA, s);
    add_byte(outcome, data.length);
    add_bytes(outcome, data.bytes, DATA_SIZE);
}
