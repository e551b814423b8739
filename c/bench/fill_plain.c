/* Captures of one kind of work over and over. */
#include "fill.h"

#include <string.h>

#include "../generate/array.h"

enum {
    PPA_NUMBER = 1,
    SAP_FIRST = 0x80,
    UDQOS_REQ = 0x0a,
    MODE_SHIFT = 16, /* mode and conn_mgmt share four bytes */
    FIELD_SIZE = 4
};

static const uint8_t mac[MAC_SIZE] = { 0x02, 0x00, 0x00, 0x00, 0x00, 0x01 };

/* --- Records */

static void add_record(struct capture *capture, const uint8_t *record)
{
    capture_add(capture, record, record_size_of_kind(record[AT_KIND]));
}

struct message {
    uint8_t length;
    uint32_t fields[6]; /* the code first; those past the length are zero */
};

static void put_message(uint8_t *record, unsigned stream, struct message message)
{
    record[AT_KIND] = 'P';
    record[AT_STREAM] = (uint8_t)stream;
    record[AT_LENGTH] = message.length;
    for (unsigned i = 0; i < LENGTH_OF(message.fields); i++)
        put32(record + AT_BLOCK + FIELD_SIZE * i, message.fields[i]);
}

static void add_message(struct capture *capture, unsigned stream, struct message message)
{
    uint8_t record[LONGEST_RECORD] = { 0 };
    put_message(record, stream, message);
    add_record(capture, record);
}

/* With as much data as there can be. */
static void add_datagram(struct capture *capture, unsigned stream)
{
    uint8_t record[LONGEST_CALL] = { 0 };
    uint8_t *address = record + AT_BLOCK + DATAGRAM_SIZE;
    uint8_t *data = record + LONGEST_RECORD;
    put_message(record, stream, (struct message){
        DATAGRAM_SIZE + ADDRESS_SIZE, { UNITDATA_REQ, ADDRESS_SIZE, DATAGRAM_SIZE }
    });
    memcpy(address, mac, MAC_SIZE);
    address[MAC_SIZE] = SAP_FIRST;
    data[AT_KIND] = 'M';
    data[AT_STREAM] = (uint8_t)stream;
    data[AT_LENGTH] = DATA_SIZE;
    capture_add(capture, record, sizeof record);
}

/* To the first SAP, with as much data. */
static void add_frame(struct capture *capture)
{
    uint8_t record[LONGEST_RECORD] = { 'f' };
    put32(record + AT_PPA, PPA_NUMBER);
    record[AT_FRAME_ADDRESS_LENGTH] = ADDRESS_SIZE;
    memcpy(record + AT_FRAME_CALLED, mac, MAC_SIZE);
    record[AT_FRAME_CALLED + MAC_SIZE] = SAP_FIRST;
    memcpy(record + AT_FRAME_CALLING, mac, MAC_SIZE);
    record[AT_FRAME_DATA_LENGTH] = DATA_SIZE;
    add_record(capture, record);
}

static void add_ppa(struct capture *capture)
{
    uint8_t record[LONGEST_RECORD] = { 'G' };
    put32(record + AT_PPA, PPA_NUMBER);
    memcpy(record + AT_PPA_MAC, mac, MAC_SIZE);
    add_record(capture, record);
}

static void add_call(struct capture *capture, unsigned sap)
{
    uint8_t record[LONGEST_RECORD] = { 'I' };
    put32(record + AT_PPA, PPA_NUMBER);
    memcpy(record + AT_CALLED, mac, MAC_SIZE);
    record[AT_CALLED + MAC_SIZE] = (uint8_t)sap;
    memcpy(record + AT_CALLING, mac, MAC_SIZE);
    add_record(capture, record);
}

static void add_withdrawal(struct capture *capture, unsigned stream, uint32_t number)
{
    uint8_t record[LONGEST_RECORD] = { 'W', (uint8_t)stream };
    put32(record + AT_WITHDRAWN_NUMBER, number);
    add_record(capture, record);
}

static void add_peer_gone(struct capture *capture, unsigned stream)
{
    const uint8_t record[LONGEST_RECORD] = { 'D', (uint8_t)stream };
    add_record(capture, record);
}

/* --- Streams */

/* Opens the stream, which is the lowest free one, and binds it. */
static void add_bound(struct capture *capture, unsigned stream, unsigned sap, unsigned max_conind, uint32_t mode)
{
    const uint8_t opening[LONGEST_RECORD] = { 'O' };
    add_record(capture, opening);
    add_message(capture, stream, (struct message){ ATTACH_SIZE, { ATTACH_REQ, PPA_NUMBER } });
    add_message(capture, stream, (struct message){
        BIND_SIZE, { BIND_REQ, sap, max_conind, mode << MODE_SHIFT }
    });
}

static unsigned sap_of(unsigned stream)
{
    return SAP_FIRST + 2 * stream;
}

/* One PPA, and streams that each listen for a SAP of their own. */
static void add_listeners(struct capture *capture, unsigned streams)
{
    add_ppa(capture);
    for (unsigned stream = 0; stream < streams; stream++)
        add_bound(capture, stream, sap_of(stream), INDICATIONS, MODE_CONNECTION);
}

/* One PPA, and streams that are all bound to the first SAP in mode 2. */
static void add_boards(struct capture *capture, unsigned streams)
{
    add_ppa(capture);
    for (unsigned stream = 0; stream < streams; stream++)
        add_bound(capture, stream, SAP_FIRST, 0, MODE_CONNECTIONLESS);
}

/* --- The captures */

void fill_information(struct capture *capture, unsigned streams)
{
    add_listeners(capture, streams);
    for (unsigned turn = 0; !capture_is_full(capture); turn++)
        add_message(capture, turn % streams, (struct message){ CODE_SIZE, { INFO_REQ } });
}

/* To an idle stream: NOTSUPPORTED, BADPRIM, OUTSTATE, BADQOSTYPE, BADADDR. */
static const struct message wrong[] = {
    { CODE_SIZE, { UDQOS_REQ } },
    { CODE_SIZE, { ATTACH_REQ } },
    { BIND_SIZE, { BIND_REQ, SAP_FIRST, 1, (uint32_t)MODE_CONNECTION << MODE_SHIFT } },
    { CONNECT_SIZE, { CONNECT_REQ, ADDRESS_SIZE, CONNECT_SIZE, 1 } },
    { CONNECT_SIZE, { CONNECT_REQ, ADDRESS_SIZE, CONNECT_SIZE } },
};

void fill_errors(struct capture *capture, unsigned streams)
{
    add_listeners(capture, streams);
    for (unsigned turn = 0; !capture_is_full(capture); turn++)
        add_message(capture, turn / LENGTH_OF(wrong) % streams, wrong[turn % LENGTH_OF(wrong)]);
}

static void add_accept(struct capture *capture, uint32_t number, unsigned carrier)
{
    add_message(capture, 0, (struct message){ ACCEPT_SIZE, { CONNECT_RES, number, carrier + 1 } });
}

/* At most 9 streams, as the calls for all others are open at once at stream 0. */
void fill_connections(struct capture *capture, unsigned streams)
{
    uint32_t number = 1;
    add_ppa(capture);
    add_bound(capture, 0, SAP_FIRST, INDICATIONS, MODE_CONNECTION);
    for (unsigned carrier = 1; carrier < streams; carrier++)
        add_bound(capture, carrier, SAP_FIRST, 0, MODE_CONNECTION);
    while (!capture_is_full(capture)) {
        for (unsigned carrier = 1; carrier < streams; carrier++)
            add_call(capture, SAP_FIRST);
        for (unsigned carrier = 1; carrier < streams; carrier++)
            add_accept(capture, number++, carrier);
        for (unsigned carrier = 1; carrier < streams; carrier++)
            add_peer_gone(capture, carrier);
    }
}

/* Calls go round the streams, and so does the withdrawal of the oldest: number n is on stream n - 1, modulo streams. */
void fill_ringing(struct capture *capture, unsigned streams)
{
    add_listeners(capture, streams);
    for (unsigned i = 0; i < streams * INDICATIONS; i++)
        add_call(capture, sap_of(i % streams));
    for (uint32_t oldest = 1; !capture_is_full(capture); oldest++) {
        unsigned stream = (oldest - 1) % streams;
        add_withdrawal(capture, stream, oldest);
        add_call(capture, sap_of(stream));
    }
}

void fill_datagrams(struct capture *capture, unsigned streams)
{
    add_boards(capture, streams);
    for (unsigned turn = 0; !capture_is_full(capture); turn++)
        add_datagram(capture, turn % streams);
}

void fill_frames(struct capture *capture, unsigned streams)
{
    add_boards(capture, streams);
    while (!capture_is_full(capture))
        add_frame(capture);
}
