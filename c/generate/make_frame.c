/* Frames: to bound streams, to nobody, and wrong ones. */
#include "make.h"

#include <string.h>

#include "array.h"
#include "data.h"
#include "image.h"
#include "pick.h"

/* --- Right frames */

/* A frame to an address of the PPA at the place, from anywhere; addresses are of so many bytes. */
static void put_frame(struct generator *generator, struct record *record, unsigned place, unsigned size, unsigned sap)
{
    memset(record->bytes, 0, sizeof record->bytes);
    record->bytes[AT_KIND] = 'f';
    record->size = record_size_of_kind('f');
    put32(record->bytes + AT_PPA, image_ppa_number(generator->table, place));
    record->bytes[AT_FRAME_ADDRESS_LENGTH] = (uint8_t)size;
    memcpy(record->bytes + AT_FRAME_CALLED, image_ppa_mac(generator->table, place), MAC_SIZE);
    put_sap(record->bytes + AT_FRAME_CALLED, size, sap);
    pick_bytes(generator, record->bytes + AT_FRAME_CALLING, size);
    data_fill(generator, record->bytes + AT_FRAME_DATA_LENGTH);
}

bool make_frame(struct generator *generator, uint32_t subject, struct record *record)
{
    (void)subject;
    int found = pick_stream_where(generator, is_connectionless, 0);
    if (found < 0)
        return false;
    unsigned stream = (unsigned)found;
    int place = image_find_ppa(generator->table, image_ppa(generator->table, stream));
    put_frame(generator, record, (unsigned)place, image_address_size(generator->table, stream),
              image_sap(generator->table, stream));
    return true;
}

/* To any SAP or type of any PPA. */
static bool make_any_frame(struct generator *generator, struct record *record)
{
    int place = pick_ppa(generator);
    if (place < 0)
        return false;
    bool with_type = dice_one_in(&generator->dice, 3);
    put_frame(generator, record, (unsigned)place, with_type ? TYPE_ADDRESS_SIZE : ADDRESS_SIZE,
              with_type ? pick_type(generator) : pick_sap(generator));
    return true;
}

/* --- Frames that are served, but mostly come to no stream */

/* A SAP in two bytes, or the lower byte of a type in one. */
static void change_form(struct generator *generator, struct record *record)
{
    const uint8_t *called = record->bytes + AT_FRAME_CALLED;
    int place = image_find_ppa(generator->table, get32(record->bytes + AT_PPA));
    if (record->bytes[AT_FRAME_ADDRESS_LENGTH] == ADDRESS_SIZE)
        put_frame(generator, record, (unsigned)place, TYPE_ADDRESS_SIZE, called[MAC_SIZE]);
    else
        put_frame(generator, record, (unsigned)place, ADDRESS_SIZE, get16(called + MAC_SIZE));
}

/* To another MAC, to all of them, in the other form, or to any SAP. */
bool make_frame_for_nobody(struct generator *generator, uint32_t subject, struct record *record)
{
    if (!make_frame(generator, subject, record) && !make_any_frame(generator, record))
        return false;
    switch (dice_below(&generator->dice, 4)) {
    case 0:
        pick_bit(generator, record->bytes + AT_FRAME_CALLED, MAC_SIZE);
        break;
    case 1:
        memset(record->bytes + AT_FRAME_CALLED, 0xff, MAC_SIZE);
        break;
    case 2:
        change_form(generator, record);
        break;
    default:
        return make_any_frame(generator, record);
    }
    return true;
}

/* --- Frames that are refused */

typedef void frame_spoiler(struct generator *generator, struct record *record);

static void spoil_ppa(struct generator *generator, struct record *record)
{
    put32(record->bytes + AT_PPA, pick_unknown_ppa(generator));
}

/* Next to one of the right ones, or any other; half the time with addresses that are zero past it. */
static void spoil_address_length(struct generator *generator, struct record *record)
{
    static const uint8_t lengths[] = { 0, ADDRESS_SIZE - 1, TYPE_ADDRESS_SIZE + 1, UINT8_MAX };
    uint8_t length = (uint8_t)dice_any(&generator->dice);
    if (length == ADDRESS_SIZE || length == TYPE_ADDRESS_SIZE || !dice_one_in(&generator->dice, 4))
        length = lengths[dice_below(&generator->dice, sizeof lengths)];
    record->bytes[AT_FRAME_ADDRESS_LENGTH] = length;
    if (length >= TYPE_ADDRESS_SIZE || dice_one_in(&generator->dice, 2))
        return;
    memset(record->bytes + AT_FRAME_CALLED + length, 0, TYPE_ADDRESS_SIZE - length);
    memset(record->bytes + AT_FRAME_CALLING + length, 0, TYPE_ADDRESS_SIZE - length);
}

/* Addresses with a type have no padding. */
static void spoil_address_padding(struct generator *generator, struct record *record)
{
    size_t address = dice_one_in(&generator->dice, 2) ? AT_FRAME_CALLED : AT_FRAME_CALLING;
    if (record->bytes[AT_FRAME_ADDRESS_LENGTH] == ADDRESS_SIZE)
        record->bytes[address + ADDRESS_SIZE] = (uint8_t)(1u << dice_below(&generator->dice, 8));
}

static void spoil_data_padding(struct generator *generator, struct record *record)
{
    data_spoil_padding(generator, record->bytes + AT_FRAME_DATA_LENGTH);
}

static void spoil_data_length(struct generator *generator, struct record *record)
{
    data_spoil_length(generator, record->bytes + AT_FRAME_DATA_LENGTH);
}

static frame_spoiler *const spoilers[] = {
    spoil_ppa, spoil_address_length, spoil_address_padding, spoil_data_padding, spoil_data_length
};

/* Two wrongs tell which is tested first. */
bool make_wrong_frame(struct generator *generator, uint32_t subject, struct record *record)
{
    if (!make_frame(generator, subject, record) && !make_any_frame(generator, record))
        return false;
    unsigned ways = 1 + dice_below(&generator->dice, 2);
    for (unsigned i = 0; i < ways; i++)
        spoilers[dice_below(&generator->dice, LENGTH_OF(spoilers))](generator, record);
    return true;
}
