/* sound.c - what makes a table sound. */
#include "sound.h"

#include <stddef.h>

#include "sap.h"

static bool ppa_numbers_differ(const struct table *table)
{
    for (unsigned i = 0; i < table->ppas; i++)
        for (unsigned j = 0; j < i; j++)
            if (table->ppa[i].number.value == table->ppa[j].number.value)
                return false;
    return true;
}

/* Attached to a PPA of the table except in 0. */
static bool attachment_is_sound(const struct table *table,
                                const struct stream *stream)
{
    if (stream->state == UNATTACHED)
        return stream->ppa.value == 0;
    return second_find_ppa(table, stream->ppa) != NULL;
}

static bool holds_no_binding(const struct stream *stream)
{
    return stream->mode == NO_MODE && stream->sap == 0 && stream->granted == 0;
}

static bool bound_as_bind_allows(const struct stream *stream)
{
    if (stream->mode == CONNECTION)
        return second_is_sap(stream->sap) && stream->granted <= INDICATIONS;
    return stream->mode == CONNECTIONLESS && stream->granted == 0
        && (second_is_sap(stream->sap) || second_is_type(stream->sap));
}

/* Bound from 6 on, in mode 1 above 6. */
static bool binding_is_sound(const struct stream *stream)
{
    if (stream->state < IDLE)
        return holds_no_binding(stream);
    return bound_as_bind_allows(stream)
        && (stream->state == IDLE || stream->mode == CONNECTION);
}

/* Only state 9 has open indications. */
static bool indications_are_sound(const struct stream *stream)
{
    if (stream->state != INCOMING_PENDING)
        return stream->indications == 0;
    return stream->indications >= 1 && stream->indications <= stream->granted;
}

static bool closed_and_empty(const struct stream *stream)
{
    return stream->state == UNATTACHED && stream->ppa.value == 0
        && holds_no_binding(stream) && stream->indications == 0;
}

static bool stream_is_sound(const struct table *table,
                            const struct stream *stream)
{
    if (!stream->open)
        return closed_and_empty(stream);
    return attachment_is_sound(table, stream) && binding_is_sound(stream)
        && indications_are_sound(stream);
}

static bool streams_are_sound(const struct table *table)
{
    for (unsigned s = 0; s < STREAMS; s++)
        if (!stream_is_sound(table, &table->stream[s]))
            return false;
    return true;
}

static unsigned times_open(const struct table *table, struct correlation number)
{
    unsigned times = 0;

    for (unsigned s = 0; s < STREAMS; s++)
        for (unsigned i = 0; i < table->stream[s].indications; i++)
            if (table->stream[s].indication[i].value == number.value)
                times++;
    return times;
}

/* No open number is 0 or occurs twice, on one stream or on two. */
static bool open_numbers_are_sound(const struct table *table)
{
    for (unsigned s = 0; s < STREAMS; s++)
        for (unsigned i = 0; i < table->stream[s].indications; i++) {
            struct correlation number = table->stream[s].indication[i];

            if (number.value == 0 || times_open(table, number) > 1)
                return false;
        }
    return true;
}

static bool listeners_differ(const struct table *table)
{
    for (unsigned s = 0; s < STREAMS; s++) {
        const struct stream *stream = &table->stream[s];

        if (stream->granted > 0
            && second_find_listener(table, stream->ppa, stream->sap) != s)
            return false;
    }
    return true;
}

/* A table with an open stream remembers an opening. */
static bool opening_is_remembered(const struct table *table)
{
    for (unsigned s = 0; s < STREAMS; s++)
        if (table->stream[s].open && !table->opened)
            return false;
    return true;
}

bool second_is_sound(const struct table *table)
{
    return ppa_numbers_differ(table) && streams_are_sound(table)
        && open_numbers_are_sound(table) && listeners_differ(table)
        && opening_is_remembered(table);
}
