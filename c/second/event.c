/* event.c - the events from the line. */
#include "event.h"

#include <stddef.h>
#include <string.h>

#include "bytes.h"
#include "message.h"
#include "sap.h"

/*
 * The stream that listens at the called address of that PPA, or STREAMS if
 * the PPA is unknown, the MAC isn't that PPA's or nobody listens.
 */
static unsigned find_called(const struct table *table, struct ppa_number number,
                            const uint8_t called[PEER_ADDRESS_SIZE])
{
    const struct ppa *ppa = second_find_ppa(table, number);

    if (ppa == NULL || memcmp(ppa->mac, called, MAC_SIZE) != 0)
        return STREAMS;
    return second_find_listener(table, number, called[MAC_SIZE]);
}

static bool can_take_a_call(const struct stream *listener)
{
    return (listener->state == IDLE || listener->state == INCOMING_PENDING)
        && listener->indications < listener->granted;
}

enum refusal second_call_arrives(struct table *table, const uint8_t *body,
                                 struct outcome *outcome)
{
    struct ppa_number ppa = { get32(body) };
    const uint8_t *called = body + 4;
    const uint8_t *calling = called + PEER_ADDRESS_SIZE;
    unsigned s = find_called(table, ppa, called);
    struct correlation number;

    if (s == STREAMS)
        return REFUSED_CALLED;
    if (!can_take_a_call(&table->stream[s]))
        return REFUSED_LISTENER;

    number = second_take_number(table);
    second_gain_indication(&table->stream[s], number);
    second_send_connect_ind(outcome, s, number, called, calling);
    return SERVED;
}

enum refusal second_peer_accepted(struct table *table, const uint8_t *body,
                                  struct outcome *outcome)
{
    unsigned s = body[0];
    const uint8_t *address = body + 1;
    struct stream *stream = &table->stream[s];

    if (stream->state != OUTGOING_PENDING)
        return REFUSED_EVENT;

    stream->state = CONNECTED;
    second_send_connect_con(outcome, s, address);
    return SERVED;
}

enum refusal second_peer_gone(struct table *table, const uint8_t *body,
                              struct outcome *outcome)
{
    unsigned s = body[0];
    uint32_t reason = get32(body + 1);
    struct stream *stream = &table->stream[s];
    const struct correlation none = { 0 };

    if (!second_has_peer(stream))
        return REFUSED_EVENT;

    if (stream->state != OUTGOING_PENDING)
        second_out_flush(outcome, s);
    stream->state = IDLE;
    second_send_disconnect_ind(outcome, s, reason, none);
    return SERVED;
}

enum refusal second_call_withdrawn(struct table *table, const uint8_t *body,
                                   struct outcome *outcome)
{
    unsigned s = body[0];
    struct correlation number = { get32(body + 1) };
    uint32_t reason = get32(body + 5);
    struct stream *stream = &table->stream[s];

    if (!second_has_indication(stream, number))
        return REFUSED_EVENT;

    second_lose_indication(stream, number);
    second_send_disconnect_ind(outcome, s, reason, number);
    return SERVED;
}

enum refusal second_peer_reset(struct table *table, const uint8_t *body,
                               struct outcome *outcome)
{
    unsigned s = body[0];
    uint32_t reason = get32(body + 1);
    struct stream *stream = &table->stream[s];

    if (stream->state != CONNECTED)
        return REFUSED_EVENT;

    stream->state = PROVIDER_RESET_PENDING;
    second_out_flush(outcome, s);
    second_send_reset_ind(outcome, s, reason);
    return SERVED;
}

enum refusal second_reset_confirmed(struct table *table, const uint8_t *body,
                                    struct outcome *outcome)
{
    unsigned s = body[0];
    struct stream *stream = &table->stream[s];

    if (stream->state != USER_RESET_PENDING)
        return REFUSED_EVENT;

    stream->state = CONNECTED;
    second_out_flush(outcome, s);
    second_send_reset_con(outcome, s);
    return SERVED;
}
