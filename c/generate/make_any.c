/* Records that are made out of other records, and the one that ends the reading. */
#include "make.h"

#include <string.h>

#include "message.h"
#include "pick.h"

/* A record for a stream that is closed or over 15. A message may be too short, too long or padded as well. */
bool make_for_no_stream(struct generator *generator, uint32_t subject, struct record *record)
{
    static const char kinds[] = "XADWRSPCPCPC";
    (void)subject;
    uint8_t kind = (uint8_t)kinds[dice_below(&generator->dice, sizeof kinds - 1)];
    message_start(generator, record, 0, pick_small_code(generator));
    if (!record_is_message(&kind))
        pick_bytes(generator, record->bytes + AT_STREAM, LONGEST_RECORD - AT_STREAM);
    else if (dice_one_in(&generator->dice, 2))
        message_cut(record, dice_below(&generator->dice, 256));
    else if (dice_one_in(&generator->dice, 2))
        message_cut(record, dice_below(&generator->dice, CODE_SIZE));
    else if (dice_one_in(&generator->dice, 2))
        record->bytes[LONGEST_RECORD - 1] = 1;
    record->bytes[AT_KIND] = kind;
    record->bytes[AT_STREAM] = (uint8_t)pick_no_stream(generator);
    record->size = record_size_of_kind(kind);
    return true;
}

/* The record before it once more. */
bool make_again(struct generator *generator, uint32_t subject, struct record *record)
{
    (void)subject;
    if (generator->made < 2)
        return false;
    *record = generator->last;
    return true;
}

/* A record that lacks bytes at its end; every kind save O can be cut. */
static void make_cut(struct generator *generator, struct record *record)
{
    static const char kinds[] = "GXPCIADWRSMf";
    uint8_t kind = (uint8_t)kinds[dice_below(&generator->dice, sizeof kinds - 1)];
    memset(record->bytes, 0, sizeof record->bytes);
    record->bytes[AT_KIND] = kind;
    record->size = 1 + dice_below(&generator->dice, (uint32_t)record_size_of_kind(kind) - 1);
}

/* Kinds of records out, kinds of records in but for one bit, and any others. */
static void make_unknown_kind(struct generator *generator, struct record *record)
{
    static const char kinds[] = "Fcadrsu\0gopxiwm";
    uint8_t kind = (uint8_t)kinds[dice_below(&generator->dice, sizeof kinds - 1)];
    if (dice_one_in(&generator->dice, 3))
        kind = (uint8_t)dice_any(&generator->dice);
    pick_bytes(generator, record->bytes, LONGEST_RECORD);
    record->bytes[AT_KIND] = record_size_of_kind(kind) == 0 ? kind : 'F';
    record->size = 1 + dice_below(&generator->dice, LONGEST_RECORD);
}

void make_end_of_reading(struct generator *generator, struct record *record)
{
    if (dice_one_in(&generator->dice, 2))
        make_cut(generator, record);
    else
        make_unknown_kind(generator, record);
}

bool make_cut_datagram(struct generator *generator, uint32_t subject, struct record *record)
{
    uint8_t *data = record->bytes + LONGEST_RECORD;
    (void)subject;
    if (!make_right_request(generator, UNITDATA_REQ, record))
        return false;
    data[AT_KIND] = 'M';
    data[AT_STREAM] = record->bytes[AT_STREAM];
    record->size = LONGEST_RECORD + 1 + dice_below(&generator->dice, DATA_RECORD_SIZE - 1);
    return true;
}
