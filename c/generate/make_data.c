/* The M that belongs right behind a datagram, and one by itself. */
#include "make.h"

#include <string.h>

#include "data.h"
#include "pick.h"

static void put_data(struct generator *generator, uint8_t *bytes, unsigned stream)
{
    memset(bytes, 0, DATA_RECORD_SIZE);
    bytes[AT_KIND] = 'M';
    bytes[AT_STREAM] = (uint8_t)stream;
    data_fill(generator, bytes + AT_LENGTH);
}

/* With the datagram before it that lacks its M it would be one call, if they were of one stream. */
bool make_data_by_itself(struct generator *generator, uint32_t subject, struct record *record)
{
    (void)subject;
    unsigned stream = dice_below(&generator->dice, STREAMS + 1);
    if (record_lacks_data(&generator->last) && generator->last.bytes[AT_STREAM] == stream)
        return false;
    put_data(generator, record->bytes, stream);
    record->size = DATA_RECORD_SIZE;
    return true;
}

/* More often where the capture ends. */
static bool is_left_out(struct generator *generator)
{
    return dice_one_in(&generator->dice, generator->made == generator->calls ? 2 : 12);
}

void make_data_behind(struct generator *generator, struct record *record)
{
    uint8_t *data = record->bytes + LONGEST_RECORD;
    if (is_left_out(generator))
        return;
    put_data(generator, data, record->bytes[AT_STREAM]);
    record->size = LONGEST_CALL;
    if (dice_one_in(&generator->dice, 12))
        data_spoil_padding(generator, data + AT_LENGTH);
    if (dice_one_in(&generator->dice, 12))
        data_spoil_length(generator, data + AT_LENGTH);
}
