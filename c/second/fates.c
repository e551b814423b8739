/* fates.c - reads from the records of a capture what became of each call. */
#include "fates.h"

#include <stddef.h>
#include <stdint.h>

#include "bytes.h"
#include "message.h"
#include "record.h"
#include "refusal.h"

/* Where the records out hold what. */
enum {
    OUT_STREAM = 1,
    OUT_NUMBER = 2, /* of an a or a d */
    OUT_BLOCK = 3,  /* of a message */
    CONNECT_IND_NUMBER = OUT_BLOCK + 4,
    DISCONNECT_IND_NUMBER = OUT_BLOCK + 12
};

static struct correlation number_at(const uint8_t *bytes)
{
    return (struct correlation){ get32(bytes) };
}

/* It names the carrying stream; the call rang in where the message is from. */
static bool note_accept(struct ledger *ledger, const uint8_t *in,
                        const uint8_t *out)
{
    const uint8_t *body = in + 1;

    if (!second_is_message(in[0]))
        return true;
    return second_note_fate(ledger, body[MESSAGE_STREAM], ACCEPTED,
                            number_at(out + OUT_NUMBER));
}

/* With number 0 it is about a connection. */
static bool note_disconnect(struct ledger *ledger, const uint8_t *in,
                            const uint8_t *out)
{
    struct correlation number = number_at(out + OUT_NUMBER);

    if (number.value == 0)
        return true;
    if (second_is_message(in[0]))
        return second_note_fate(ledger, out[OUT_STREAM], DENIED, number);
    if (in[0] == CLOSE)
        return second_note_fate(ledger, out[OUT_STREAM], DROPPED, number);
    return true;
}

static bool note_disconnect_ind(struct ledger *ledger, const uint8_t *out)
{
    struct correlation number = number_at(out + DISCONNECT_IND_NUMBER);

    if (number.value == 0)
        return true;
    return second_note_fate(ledger, out[OUT_STREAM], WITHDRAWN, number);
}

static bool note_message(struct ledger *ledger, const uint8_t *out)
{
    switch (get32(out + OUT_BLOCK)) {
    case CONNECT_IND:
        return second_note_call(ledger, out[OUT_STREAM],
                                number_at(out + CONNECT_IND_NUMBER));
    case DISCONNECT_IND:
        return note_disconnect_ind(ledger, out);
    default:
        return true;
    }
}

/* The record out was written in the call for the record in. */
static bool note_record(struct ledger *ledger, const uint8_t *in,
                        const uint8_t *out)
{
    switch (out[0]) {
    case ACCEPT:
        return note_accept(ledger, in, out);
    case DISCONNECT:
        return note_disconnect(ledger, in, out);
    case M_PROTO:
    case M_PCPROTO:
        return note_message(ledger, out);
    default:
        return true;
    }
}

bool second_note_turn(struct ledger *ledger, const struct turn *turn)
{
    const uint8_t *room = turn->room;
    bool noted = true;

    if (turn->refusal != SERVED)
        return true;
    if (turn->opened.value != 0)
        noted = second_note_opening(ledger, turn->opened.value - 1);
    for (size_t at = 0; noted && at < turn->size;
         at += second_record_out_size(room[at]))
        noted = note_record(ledger, turn->record, room + at);
    return noted;
}

enum ending second_fates(FILE *in, FILE *out)
{
    struct capture capture;
    struct turn turn;
    struct ledger ledger = { .out = out };

    second_begin_capture(&capture, in);
    fputs("dlpi fates\n", out);
    while (!ferror(out) && second_next_turn(&capture, &turn))
        if (!second_note_turn(&ledger, &turn))
            return PROVIDER_FAILED;
    if (ferror(in))
        return READING_FAILED;
    if (ferror(out))
        return WRITING_FAILED;

    second_sum_up(&ledger);
    return fflush(out) == 0 && !ferror(out) ? DONE : WRITING_FAILED;
}
