/* datagram.c - connectionless traffic: datagrams and frames. */
#include "datagram.h"

#include <string.h>

#include "bytes.h"
#include "message.h"
#include "sap.h"

/* Where a UNITDATA_REQ holds what. Its priority is unread. */
enum {
    DEST_LENGTH = 4,
    DEST_OFFSET = 8,
    UNITDATA_REQ_SIZE = 20
};

/* A UNITDATA_REQ from stream s, with its data. */
struct datagram {
    const struct stream *stream;
    unsigned s;
    const uint8_t *message;
    size_t length;
    struct data data;
};

static struct datagram read_datagram(const struct table *table,
                                     const uint8_t *record)
{
    const uint8_t *body = record + 1;

    return (struct datagram){
        .stream = &table->stream[body[MESSAGE_STREAM]],
        .s = body[MESSAGE_STREAM],
        .message = body + MESSAGE_BLOCK,
        .length = body[MESSAGE_LENGTH],
        .data = second_data_behind(record),
    };
}

/*
 * Datagrams and frames are for streams in state 6, bound in mode 2. A closed
 * stream is in neither.
 */
static bool has_row(const struct stream *stream)
{
    return stream->state == IDLE && stream->mode == CONNECTIONLESS;
}

/* In an address of that length, 1 byte is a SAP and 2 are a type. */
static bool could_be_bound(const uint8_t *sap, size_t address_length)
{
    return address_length == PEER_ADDRESS_SIZE ? second_is_sap(sap[0])
                                               : second_is_type(get16(sap));
}

/*
 * The destination as that part of the message, or NULL if it is a bad one. It
 * has the form of the stream's own address.
 */
static const uint8_t *destination(const struct datagram *datagram)
{
    size_t form = second_address_length(datagram->stream->sap);
    uint32_t length = get32(datagram->message + DEST_LENGTH);
    uint32_t offset = get32(datagram->message + DEST_OFFSET);
    const uint8_t *address;

    /* The message is at least as long as its fixed size, so longer than 8. */
    if (length != form || offset < UNITDATA_REQ_SIZE
        || offset > datagram->length - form)
        return NULL;

    address = datagram->message + offset;
    return could_be_bound(address + MAC_SIZE, form) ? address : NULL;
}

/* Of full size: gives the first error that applies, or sends to the line. */
static enum dl_error send_to_line(const struct datagram *datagram,
                                  struct outcome *outcome)
{
    const uint8_t *called;

    if (!has_row(datagram->stream))
        return OUTSTATE;
    called = destination(datagram);
    if (called == NULL)
        return BADADDR;

    second_out_datagram(outcome, datagram->s, called,
                        second_address_length(datagram->stream->sap));
    second_out_data(outcome, datagram->s, datagram->data);
    return NO_ERROR;
}

enum refusal second_take_datagram(const struct table *table,
                                  const uint8_t *record,
                                  struct outcome *outcome)
{
    struct datagram datagram = read_datagram(table, record);
    enum dl_error error;

    if (datagram.data.length > DATA_SIZE)
        return REFUSED_LONG;

    if (datagram.length < UNITDATA_REQ_SIZE) {
        second_send_error_ack(outcome, datagram.s, UNITDATA_REQ, BADPRIM);
        return SERVED;
    }
    error = send_to_line(&datagram, outcome);
    if (error != NO_ERROR)
        second_send_uderror_ind(outcome, datagram.s, error);
    return SERVED;
}

/* The SAP or the Ethernet type of the called address. */
static uint16_t called_sap(const struct frame *frame)
{
    const uint8_t *sap = frame->called + MAC_SIZE;

    return frame->address_length == PEER_ADDRESS_SIZE ? sap[0] : get16(sap);
}

/* The stream is bound, for that PPA, to that SAP in that form. */
static bool is_for(const struct frame *frame, const struct stream *stream)
{
    return has_row(stream) && stream->ppa.value == frame->ppa.value
        && second_address_length(stream->sap) == frame->address_length
        && stream->sap == called_sap(frame);
}

static void indicate(const struct frame *frame, unsigned s,
                     struct outcome *outcome)
{
    second_send_unitdata_ind(outcome, s, frame->called, frame->calling,
                             frame->address_length);
    second_out_data(outcome, s, frame->data);
}

enum refusal second_frame_arrives(const struct table *table,
                                  const uint8_t *body,
                                  struct outcome *outcome)
{
    struct frame frame = second_read_frame(body);
    const struct ppa *ppa = second_find_ppa(table, frame.ppa);

    if (frame.data.length > DATA_SIZE)
        return REFUSED_LONG;
    if (ppa == NULL)
        return REFUSED_CALLED;

    /* A called MAC that isn't the PPA's means no record. */
    if (memcmp(ppa->mac, frame.called, MAC_SIZE) != 0)
        return SERVED;
    for (unsigned s = 0; s < STREAMS; s++)
        if (is_for(&frame, &table->stream[s]))
            indicate(&frame, s, outcome);
    return SERVED;
}
