/* Records for the whole table: a PPA added, a stream opened or closed. */
#include "make.h"

#include <string.h>

#include "image.h"
#include "pick.h"

/* The next small number most often, now and then 0, one already there or any other. */
static uint32_t number_to_add(struct generator *generator)
{
    int place = pick_ppa(generator);
    switch (dice_below(&generator->dice, 16)) {
    case 0:
        return 0;
    case 1:
    case 2:
        return place < 0 ? 1 : image_ppa_number(generator->table, (unsigned)place);
    case 3:
    case 4:
    case 5:
        return pick_unknown_ppa(generator);
    default:
        return image_ppas(generator->table) + 1;
    }
}

/* MACs may be equal, so now and then it is that of another PPA; a frame to all is one's own where that is the MAC. */
static void put_mac_to_add(struct generator *generator, uint8_t *mac)
{
    static const uint8_t local[MAC_SIZE] = { 0x02 };
    int place = pick_ppa(generator);
    if (place >= 0 && dice_one_in(&generator->dice, 6)) {
        memcpy(mac, image_ppa_mac(generator->table, (unsigned)place), MAC_SIZE);
        return;
    }
    if (dice_one_in(&generator->dice, 16)) {
        memset(mac, 0xff, MAC_SIZE);
        return;
    }
    memcpy(mac, local, MAC_SIZE);
    mac[MAC_SIZE - 1] = (uint8_t)dice_any(&generator->dice);
}

bool make_ppa(struct generator *generator, uint32_t subject, struct record *record)
{
    (void)subject;
    record->bytes[AT_KIND] = 'G';
    record->size = record_size_of_kind('G');
    put32(record->bytes + AT_PPA, number_to_add(generator));
    put_mac_to_add(generator, record->bytes + AT_PPA_MAC);
    return true;
}

/* Up to the planned number of streams; with all 16 open the opening is refused. */
bool make_opening(struct generator *generator, uint32_t subject, struct record *record)
{
    (void)subject;
    unsigned open = image_open_streams(generator->table);
    if (open >= generator->plan.streams && open < STREAMS)
        return false;
    record->bytes[AT_KIND] = 'O';
    record->size = record_size_of_kind('O');
    return true;
}

bool make_closing(struct generator *generator, uint32_t subject, struct record *record)
{
    (void)subject;
    int stream = pick_stream(generator, ALL_STATES);
    if (stream < 0)
        return false;
    record->bytes[AT_KIND] = 'X';
    record->size = record_size_of_kind('X');
    record->bytes[AT_STREAM] = (uint8_t)stream;
    return true;
}
