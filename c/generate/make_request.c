/* Requests that are served, in the states where they are and where they are not. */
#include "make.h"

#include "image.h"
#include "message.h"
#include "request.h"

static const struct request *const requests[] = {
    &request_info, &request_token, &request_attach, &request_detach, &request_bind, &request_unbind,
    &request_connect, &request_accept, &request_disconnect, &request_reset, &request_reset_answer, &request_datagram,
};

/* The request of that code, which is one of those above. */
static const struct request *find_request(uint32_t code)
{
    size_t i = 0;
    while (requests[i]->code != code)
        i++;
    return requests[i];
}

static const struct request *pick_request(struct generator *generator)
{
    return requests[dice_below(&generator->dice, LENGTH_OF(requests))];
}

/* Fills a request for an open stream in one of the states. */
static bool fill_request(struct generator *generator, const struct request *request, unsigned states,
                         struct record *record)
{
    int stream = pick_stream(generator, states);
    if (stream < 0)
        return false;
    message_start(generator, record, (unsigned)stream, request->code);
    request->fill(generator, (unsigned)stream, record);
    return true;
}

/* Spoils it in one to three ways, two of which tell whether the first in the order of errors is answered. */
static void spoil_request(struct generator *generator, const struct request *request, struct record *record)
{
    if (request->spoiler_count == 0)
        return;
    unsigned ways = 1 + dice_below(&generator->dice, 3);
    for (unsigned i = 0; i < ways; i++) {
        change *spoil = request->spoilers[dice_below(&generator->dice, request->spoiler_count)];
        spoil(generator, record->bytes[AT_STREAM], record);
    }
}

/* Fills a request for a stream in a state with a row; one that is not apt is mostly left to other makers. */
static bool fill_where_served(struct generator *generator, const struct request *request, struct record *record)
{
    if (!fill_request(generator, request, request->states, record))
        return false;
    return request->apt == NULL || request->apt(generator->table, record->bytes[AT_STREAM], 0) ||
           dice_one_in(&generator->dice, 8);
}

bool make_right_request(struct generator *generator, uint32_t subject, struct record *record)
{
    return fill_where_served(generator, find_request(subject), record);
}

bool make_wrong_request(struct generator *generator, uint32_t subject, struct record *record)
{
    const struct request *request = find_request(subject);
    if (!fill_where_served(generator, request, record))
        return false;
    spoil_request(generator, request, record);
    return true;
}

bool make_misplaced_request(struct generator *generator, uint32_t subject, struct record *record)
{
    (void)subject;
    const struct request *request = pick_request(generator);
    if (!fill_request(generator, request, ALL_STATES, record))
        return false;
    if (dice_one_in(&generator->dice, 2))
        spoil_request(generator, request, record);
    return true;
}

bool make_cut_request(struct generator *generator, uint32_t subject, struct record *record)
{
    (void)subject;
    const struct request *request = pick_request(generator);
    if (request->size == CODE_SIZE || !fill_request(generator, request, ALL_STATES, record))
        return false;
    unsigned short_by = 1;
    if (!dice_one_in(&generator->dice, 3))
        short_by += dice_below(&generator->dice, request->size - CODE_SIZE);
    message_cut(record, request->size - short_by);
    return true;
}
