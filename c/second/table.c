/* table.c - the table of PPAs and streams, and what may be asked of it. */
#include "table.h"

#include <stddef.h>

struct table second_fresh_table(void)
{
    return (struct table){ .counter = { 1 } };
}

bool second_state_has_row(uint8_t state)
{
    switch (state) {
    case UNATTACHED:
    case UNBOUND:
    case IDLE:
    case OUTGOING_PENDING:
    case INCOMING_PENDING:
    case CONNECTED:
    case USER_RESET_PENDING:
    case PROVIDER_RESET_PENDING:
        return true;
    default:
        return false;
    }
}

struct token second_token_of(unsigned s)
{
    return (struct token){ s + 1 };
}

const struct ppa *second_find_ppa(const struct table *table,
                                  struct ppa_number number)
{
    for (unsigned i = 0; i < table->ppas; i++)
        if (table->ppa[i].number.value == number.value)
            return &table->ppa[i];
    return NULL;
}

/* A stream listens from a bind that granted over 0 until unbind or close. */
static bool listens_for(const struct stream *stream, struct ppa_number ppa,
                        uint16_t sap)
{
    return stream->granted > 0 && stream->ppa.value == ppa.value
        && stream->sap == sap;
}

unsigned second_find_listener(const struct table *table, struct ppa_number ppa,
                              uint16_t sap)
{
    unsigned s = 0;

    while (s < STREAMS && !listens_for(&table->stream[s], ppa, sap))
        s++;
    return s;
}

bool second_has_peer(const struct stream *stream)
{
    return stream->state == OUTGOING_PENDING || stream->state == CONNECTED
        || stream->state == USER_RESET_PENDING
        || stream->state == PROVIDER_RESET_PENDING;
}

/* The place of an open number, or the count of open ones if it is not open. */
static unsigned place_of(const struct stream *stream, struct correlation number)
{
    unsigned place = 0;

    while (place < stream->indications
           && stream->indication[place].value != number.value)
        place++;
    return place;
}

bool second_has_indication(const struct stream *stream,
                           struct correlation number)
{
    return place_of(stream, number) < stream->indications;
}

static bool open_anywhere(const struct table *table, struct correlation number)
{
    for (unsigned s = 0; s < STREAMS; s++)
        if (second_has_indication(&table->stream[s], number))
            return true;
    return false;
}

struct correlation second_take_number(struct table *table)
{
    struct correlation number = table->counter;

    /* 0 and the numbers still open are passed over; 32 bits wrap to 0. */
    while (number.value == 0 || open_anywhere(table, number))
        number.value++;
    table->counter.value = number.value + 1;
    return number;
}

void second_gain_indication(struct stream *listener, struct correlation number)
{
    listener->indication[listener->indications] = number;
    listener->indications++;
    listener->state = INCOMING_PENDING;
}

void second_lose_indication(struct stream *listener, struct correlation number)
{
    unsigned place = place_of(listener, number);

    listener->indications--;
    for (; place < listener->indications; place++)
        listener->indication[place] = listener->indication[place + 1];
    listener->indication[place] = (struct correlation){ 0 };
    if (listener->indications == 0)
        listener->state = IDLE;
}
