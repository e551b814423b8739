/* opening.c - adding PPAs, opening and closing streams. */
#include "opening.h"

#include <stddef.h>
#include <string.h>

#include "bytes.h"

enum refusal second_add_ppa(struct table *table, const uint8_t *body)
{
    struct ppa ppa = { .number = { get32(body) } };

    memcpy(ppa.mac, body + 4, MAC_SIZE);
    if (table->opened || table->ppas == PPAS
        || second_find_ppa(table, ppa.number) != NULL)
        return REFUSED_PPA;

    table->ppa[table->ppas] = ppa;
    table->ppas++;
    return SERVED;
}

/* STREAMS if all are open. */
static unsigned lowest_free_stream(const struct table *table)
{
    unsigned s = 0;

    while (s < STREAMS && table->stream[s].open)
        s++;
    return s;
}

enum refusal second_open(struct table *table, struct outcome *outcome)
{
    unsigned s = lowest_free_stream(table);

    if (s == STREAMS)
        return REFUSED_ALL_OPEN;

    table->stream[s].open = true;
    table->opened = true;
    outcome->opened = second_token_of(s);
    return SERVED;
}

enum refusal second_close(struct table *table, const uint8_t *body,
                          struct outcome *outcome)
{
    unsigned s = body[0];
    struct stream *stream = &table->stream[s];
    const struct correlation none = { 0 };
    const uint32_t reason = 0;

    for (unsigned i = 0; i < stream->indications; i++)
        second_out_disconnect(outcome, s, stream->indication[i], reason);
    if (second_has_peer(stream))
        second_out_disconnect(outcome, s, none, reason);

    *stream = (struct stream){ .open = false };
    return SERVED;
}
