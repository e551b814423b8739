/* What the line reports: calls that arrive, and events for a stream. */
#include "make.h"

#include <string.h>

#include "array.h"
#include "image.h"
#include "pick.h"

/* --- Calls */

/* A call to an address of the PPA at the place, from anywhere. */
static void put_call(struct generator *generator, struct record *record, unsigned place, unsigned sap)
{
    record->bytes[AT_KIND] = 'I';
    record->size = record_size_of_kind('I');
    put32(record->bytes + AT_PPA, image_ppa_number(generator->table, place));
    memcpy(record->bytes + AT_CALLED, image_ppa_mac(generator->table, place), MAC_SIZE);
    record->bytes[AT_CALLED + MAC_SIZE] = (uint8_t)sap;
    pick_bytes(generator, record->bytes + AT_CALLING, ADDRESS_SIZE);
}

/* A call for a stream that the test finds. */
static bool call_where(struct generator *generator, stream_test *test, struct record *record)
{
    int listener = pick_stream_where(generator, test, 0);
    if (listener < 0)
        return false;
    int place = image_find_ppa(generator->table, image_ppa(generator->table, (unsigned)listener));
    put_call(generator, record, (unsigned)place, image_sap(generator->table, (unsigned)listener));
    return true;
}

/* The listener is idle or has calls open, fewer than its granted count. */
static bool takes_call(const uint8_t *image, unsigned stream, unsigned unused)
{
    (void)unused;
    bool fits = image_state(image, stream) == IDLE || image_state(image, stream) == RINGING;
    return fits && image_indications(image, stream) < image_granted(image, stream);
}

bool make_call(struct generator *generator, uint32_t subject, struct record *record)
{
    (void)subject;
    return call_where(generator, takes_call, record);
}

static bool listens_in_vain(const uint8_t *image, unsigned stream, unsigned unused)
{
    return image_granted(image, stream) > 0 && !takes_call(image, stream, unused);
}

/* For a listener that can't take it; now and then with a wrong MAC, which is refused before that. */
bool make_call_too_many(struct generator *generator, uint32_t subject, struct record *record)
{
    (void)subject;
    if (!call_where(generator, listens_in_vain, record))
        return false;
    if (dice_one_in(&generator->dice, 4))
        pick_bit(generator, record->bytes + AT_CALLED, MAC_SIZE);
    return true;
}

/* The PPA is unknown, the MAC is another's, or the SAP is one for which mostly nobody listens. */
bool make_call_for_nobody(struct generator *generator, uint32_t subject, struct record *record)
{
    int place = pick_ppa(generator);
    if (place < 0)
        return false;
    if (!make_call(generator, subject, record))
        put_call(generator, record, (unsigned)place, pick_sap(generator));
    switch (dice_below(&generator->dice, 3)) {
    case 0:
        put32(record->bytes + AT_PPA, pick_unknown_ppa(generator));
        break;
    case 1:
        pick_bit(generator, record->bytes + AT_CALLED, MAC_SIZE);
        break;
    default:
        put_call(generator, record, (unsigned)place, dice_below(&generator->dice, SAP_END));
        break;
    }
    return true;
}

/* --- Events for a stream */

struct event {
    uint8_t kind;
    unsigned states; /* those with a row */
};

static const struct event events[] = {
    { 'A', STATE(CALLING) },
    { 'D', STATE(CALLING) | UP_STATES },
    { 'W', STATE(RINGING) },
    { 'R', STATE(CONNECTED) },
    { 'S', STATE(USER_RESET) },
};

/* Writes the event with its body for the stream, an open number in a W. */
static void put_event(struct generator *generator, struct record *record, uint8_t kind, unsigned stream)
{
    record->bytes[AT_KIND] = kind;
    record->size = record_size_of_kind(kind);
    record->bytes[AT_STREAM] = (uint8_t)stream;
    if (kind == 'A') {
        pick_bytes(generator, record->bytes + AT_PEER_ADDRESS, ADDRESS_SIZE);
    } else if (kind == 'D' || kind == 'R') {
        put32(record->bytes + AT_REASON, pick_awkward(generator));
    } else if (kind == 'W') {
        put32(record->bytes + AT_WITHDRAWN_NUMBER, pick_open_number(generator, stream));
        put32(record->bytes + AT_WITHDRAWN_REASON, pick_awkward(generator));
    }
}

/* The event of that kind, which is one of those above. */
static const struct event *find_event(uint32_t kind)
{
    const struct event *event = events;
    while (event->kind != kind)
        event++;
    return event;
}

bool make_right_event(struct generator *generator, uint32_t subject, struct record *record)
{
    const struct event *event = find_event(subject);
    int stream = pick_stream(generator, event->states);
    if (stream < 0)
        return false;
    put_event(generator, record, event->kind, (unsigned)stream);
    return true;
}

/* An event of any kind for any stream; a W half the time with a number not open there. */
bool make_misplaced_event(struct generator *generator, uint32_t subject, struct record *record)
{
    (void)subject;
    int stream = pick_stream(generator, ALL_STATES);
    if (stream < 0)
        return false;
    uint8_t kind = events[dice_below(&generator->dice, LENGTH_OF(events))].kind;
    put_event(generator, record, kind, (unsigned)stream);
    if (kind == 'W' && dice_one_in(&generator->dice, 2))
        put32(record->bytes + AT_WITHDRAWN_NUMBER, pick_foreign_number(generator, (unsigned)stream));
    return true;
}
