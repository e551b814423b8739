/* call.c - the public calls on a lent table, and the order of refusals. */
#include "second.h"

#include "datagram.h"
#include "event.h"
#include "image.h"
#include "opening.h"
#include "record.h"
#include "refusal.h"
#include "request.h"
#include "sound.h"
#include "table.h"

uint32_t second_fresh(uint8_t *table, size_t table_len)
{
    struct table fresh = second_fresh_table();

    if (table_len != SECOND_TABLE_SIZE)
        return REFUSED_TABLE;

    second_write_image(&fresh, table);
    return SERVED;
}

static bool stream_is_open(const struct table *table, uint8_t s)
{
    return s < STREAMS && table->stream[s].open;
}

/* P and C from a user are treated alike. */
static enum refusal take_message(struct table *table, const uint8_t *record,
                                 struct outcome *outcome)
{
    const uint8_t *body = record + 1;
    uint8_t length = body[MESSAGE_LENGTH];

    if (length > BLOCK_SIZE)
        return REFUSED_LONG;
    if (length < 4)
        return REFUSED_SHORT;
    if (second_is_datagram(record))
        return second_take_datagram(table, record, outcome);

    second_answer_request(table, body[MESSAGE_STREAM], body + MESSAGE_BLOCK,
                          length, outcome);
    return SERVED;
}

/*
 * The record is whole, and the stream that it may name is open. Records out
 * are written when nothing can refuse the call any more, straight to the room.
 */
static enum refusal take_record(struct table *table, const uint8_t *record,
                                struct outcome *outcome)
{
    const uint8_t *body = record + 1;

    switch (record[0]) {
    case ADD_PPA:
        return second_add_ppa(table, body);
    case OPEN:
        return second_open(table, outcome);
    case CLOSE:
        return second_close(table, body, outcome);
    case CALL_ARRIVES:
        return second_call_arrives(table, body, outcome);
    case PEER_ACCEPTED:
        return second_peer_accepted(table, body, outcome);
    case PEER_GONE:
        return second_peer_gone(table, body, outcome);
    case CALL_WITHDRAWN:
        return second_call_withdrawn(table, body, outcome);
    case PEER_RESET:
        return second_peer_reset(table, body, outcome);
    case RESET_CONFIRMED:
        return second_reset_confirmed(table, body, outcome);
    case FRAME_ARRIVES:
        return second_frame_arrives(table, body, outcome);
    default:
        return take_message(table, record, outcome);
    }
}

static size_t room_needed(uint8_t kind)
{
    return kind == FRAME_ARRIVES ? SECOND_FRAME_ROOM_SIZE : SECOND_ROOM_SIZE;
}

/* The refusals in their order: 10, 1, 2, then those of the record's kind. */
static enum refusal take_call(struct table *table, const uint8_t *record,
                              size_t record_len, size_t room_len,
                              struct outcome *outcome)
{
    size_t size = second_record_size(record, record_len);

    if (size == 0 || second_is_malformed(record, size))
        return REFUSED_RECORD;
    if (room_len < room_needed(record[0]))
        return REFUSED_ROOM;
    if (second_names_stream(record[0]) && !stream_is_open(table, record[1]))
        return REFUSED_STREAM;
    return take_record(table, record, outcome);
}

static uint32_t answer_refused(enum refusal refusal)
{
    return (uint32_t)refusal << 16;
}

static uint32_t answer_served(const struct outcome *outcome)
{
    return outcome->opened.value << 24 | (uint32_t)outcome->size;
}

uint32_t second_call(uint8_t *table, size_t table_len,
                     const uint8_t *record, size_t record_len,
                     uint8_t *room, size_t room_len)
{
    struct table own;
    struct outcome outcome = { .room = room };
    enum refusal refusal;

    if (!second_read_image(table, table_len, &own) || !second_is_sound(&own))
        return answer_refused(REFUSED_TABLE);

    refusal = take_call(&own, record, record_len, room_len, &outcome);
    if (refusal != SERVED)
        return answer_refused(refusal);

    second_write_image(&own, table);
    return answer_served(&outcome);
}
