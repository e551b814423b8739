/* The alterations of a record, and which suit it. */
#include "alter.h"

#include <string.h>

#include "../generate/array.h"
#include "../generate/message.h"

typedef void alteration(struct dice *dice, struct record *record, const struct record *other);

enum {
    FIELD_SIZE = 4,
    MOST_FIELDS = 6 /* of a request, its code included */
};

/* --- Where to change */

static uint32_t smaller(uint32_t a, uint32_t b)
{
    return a < b ? a : b;
}

/* The part of a record that says something: behind L a message has padding, and so has data. */
static uint32_t telling_size(const struct record *record)
{
    switch (record->bytes[AT_KIND]) {
    case 'P':
    case 'C':
        return AT_BLOCK + smaller(message_length(record), BLOCK_SIZE);
    case 'M':
        return AT_DATA + smaller(record->bytes[AT_LENGTH], DATA_SIZE);
    case 'f':
        return AT_FRAME_DATA + smaller(record->bytes[AT_FRAME_DATA_LENGTH], DATA_SIZE);
    default:
        return (uint32_t)record->size;
    }
}

/* A byte behind the kind, seldom one of the padding. */
static size_t draw_offset(struct dice *dice, const struct record *record)
{
    bool anywhere = dice_one_in(dice, 16);
    uint32_t size = anywhere ? (uint32_t)record->size : telling_size(record);
    return 1 + dice_below(dice, size - 1);
}

static bool is_whole(const struct record *record)
{
    return record->size == record_size_of_kind(record->bytes[AT_KIND]);
}

static bool has_field(const struct record *record)
{
    return is_whole(record) && record->size > FIELD_SIZE;
}

/* Four bytes in a row: a field of a message, or any in another record. */
static size_t draw_field(struct dice *dice, const struct record *record)
{
    if (!record_is_message(record->bytes))
        return 1 + dice_below(dice, (uint32_t)record->size - FIELD_SIZE);
    uint32_t fields = smaller(message_length(record) / FIELD_SIZE, MOST_FIELDS);
    return fields == 0 ? AT_BLOCK : AT_BLOCK + FIELD_SIZE * dice_below(dice, fields);
}

/* --- The alterations */

static void flip_bit(struct dice *dice, struct record *record, const struct record *other)
{
    size_t offset = draw_offset(dice, record);
    (void)other;
    record->bytes[offset] ^= (uint8_t)(1u << dice_below(dice, 8));
}

static void set_byte(struct dice *dice, struct record *record, const struct record *other)
{
    size_t offset = draw_offset(dice, record);
    (void)other;
    record->bytes[offset] = (uint8_t)dice_any(dice);
}

static void set_field(struct dice *dice, struct record *record, const struct record *other)
{
    static const uint32_t values[] = {
        0, 1, 2, 7, 8, 0xff, 0x600, 0xffff, 0x7fffffff, 0x80000000, 0xfffffff9, 0xffffffff
    };
    size_t offset = draw_field(dice, record);
    (void)other;
    put32(record->bytes + offset, values[dice_below(dice, LENGTH_OF(values))]);
}

static void step_field(struct dice *dice, struct record *record, const struct record *other)
{
    uint8_t *field = record->bytes + draw_field(dice, record);
    uint32_t step = dice_one_in(dice, 2) ? 1 : UINT32_MAX;
    (void)other;
    put32(field, get32(field) + step);
}

static void borrow_field(struct dice *dice, struct record *record, const struct record *other)
{
    if (!has_field(other))
        return;
    size_t to = draw_field(dice, record);
    size_t from = draw_field(dice, other);
    memcpy(record->bytes + to, other->bytes + from, FIELD_SIZE);
}

/* Any length, one up to the most or one over it, or one beside the old. */
static uint8_t draw_length(struct dice *dice, unsigned old, unsigned most)
{
    unsigned lengths[] = { 0, 0, old + 1, old - 1 };
    lengths[0] = dice_below(dice, 256);
    lengths[1] = dice_below(dice, most + 2);
    return (uint8_t)lengths[dice_below(dice, LENGTH_OF(lengths))];
}

/* With the bytes as they are, so that there is padding or some lack, or with zeros behind the new length. */
static void set_length_of(struct dice *dice, uint8_t *length, unsigned most)
{
    *length = draw_length(dice, *length, most);
    if (*length < most && dice_one_in(dice, 2))
        memset(length + 1 + *length, 0, most - *length);
}

static void set_length(struct dice *dice, struct record *record, const struct record *other)
{
    (void)other;
    set_length_of(dice, record->bytes + AT_LENGTH, record_is_message(record->bytes) ? BLOCK_SIZE : DATA_SIZE);
}

static void set_frame_length(struct dice *dice, struct record *record, const struct record *other)
{
    (void)other;
    set_length_of(dice, record->bytes + AT_FRAME_DATA_LENGTH, DATA_SIZE);
}

/* Most often to the other form, whose last byte is then a part of the address or padding. */
static void set_address_length(struct dice *dice, struct record *record, const struct record *other)
{
    uint8_t *length = record->bytes + AT_FRAME_ADDRESS_LENGTH;
    (void)other;
    if (dice_one_in(dice, 4))
        *length = draw_length(dice, *length, TYPE_ADDRESS_SIZE);
    else
        *length = *length == ADDRESS_SIZE ? TYPE_ADDRESS_SIZE : ADDRESS_SIZE;
}

static void set_stream(struct dice *dice, struct record *record, const struct record *other)
{
    (void)other;
    record->bytes[AT_STREAM] = (uint8_t)dice_below(dice, STREAMS + 1);
}

/* For the other kind of the same body. */
static void trade_kind(struct dice *dice, struct record *record, const struct record *other)
{
    static const char pairs[] = "PCXSDR";
    const char *kind = strchr(pairs, record->bytes[AT_KIND]);
    (void)dice;
    (void)other;
    if (kind != NULL)
        record->bytes[AT_KIND] = (uint8_t)pairs[(kind - pairs) ^ 1];
}

/* --- The choice */

static alteration *const of_messages[] = {
    flip_bit, flip_bit, set_byte, set_field, set_field, step_field, borrow_field, borrow_field, set_length,
    set_length, set_stream, set_stream, trade_kind
};

static alteration *const of_data[] = {
    flip_bit, set_byte, set_length, set_length, set_stream
};

static alteration *const of_frames[] = {
    flip_bit, flip_bit, set_byte, set_field, step_field, borrow_field, set_frame_length, set_address_length
};

static alteration *const of_fields[] = {
    flip_bit, set_byte, set_field, step_field, borrow_field, set_stream, trade_kind
};

static alteration *const of_streams[] = {
    flip_bit, set_byte, set_stream, trade_kind
};

#define ONE_OF(dice, alterations) ((alterations)[dice_below(dice, LENGTH_OF(alterations))])

static alteration *draw_alteration(struct dice *dice, const struct record *record)
{
    switch (record->bytes[AT_KIND]) {
    case 'P':
    case 'C':
        return ONE_OF(dice, of_messages);
    case 'M':
        return ONE_OF(dice, of_data);
    case 'f':
        return ONE_OF(dice, of_frames);
    default:
        return has_field(record) ? ONE_OF(dice, of_fields) : ONE_OF(dice, of_streams);
    }
}

static void alter_whole(struct dice *dice, struct record *record, const struct record *other)
{
    if (is_whole(record) && record->size > 1)
        draw_alteration(dice, record)(dice, record, other);
}

/* One of the two records that a datagram is. */
static void alter_part(struct dice *dice, struct record *record, const struct record *other)
{
    bool of_message = dice_one_in(dice, 2);
    uint8_t *bytes = record->bytes + (of_message ? 0 : LONGEST_RECORD);
    struct record part = { .size = of_message ? LONGEST_RECORD : DATA_RECORD_SIZE };
    memcpy(part.bytes, bytes, part.size);
    alter_whole(dice, &part, other);
    memcpy(bytes, part.bytes, part.size);
}

/* The stream of both. */
static void move_datagram(struct dice *dice, struct record *record)
{
    uint8_t stream = (uint8_t)dice_below(dice, STREAMS + 1);
    record->bytes[AT_STREAM] = stream;
    record->bytes[LONGEST_RECORD + AT_STREAM] = stream;
}

void alter_record(struct dice *dice, struct record *record, const struct record *other)
{
    if (record->size != LONGEST_CALL)
        alter_whole(dice, record, other);
    else if (dice_one_in(dice, 4))
        move_datagram(dice, record);
    else
        alter_part(dice, record, other);
}
