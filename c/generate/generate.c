#include "generate.h"

#include <assert.h>

#include "array.h"
#include "make.h"

/* --- The table of choices */

struct choice {
    unsigned weight; /* how often it is drawn, against the sum of all */
    maker *make;
    uint32_t subject;
};

/* A further kind of record is a further maker and a line here. */
static const struct choice choices[] = {
    { 30, make_opening, 0 },
    { 4, make_closing, 0 },
    { 1, make_ppa, 0 },

    { 2, make_right_request, INFO_REQ },
    { 2, make_right_request, TOKEN_REQ },
    { 60, make_right_request, ATTACH_REQ },
    { 2, make_right_request, DETACH_REQ },
    { 60, make_right_request, BIND_REQ },
    { 3, make_right_request, UNBIND_REQ },
    { 14, make_right_request, CONNECT_REQ },
    { 24, make_right_request, CONNECT_RES },
    { 4, make_right_request, DISCONNECT_REQ },
    { 12, make_right_request, RESET_REQ },
    { 5, make_right_request, RESET_RES },
    { 12, make_right_request, UNITDATA_REQ },

    { 3, make_wrong_request, ATTACH_REQ },
    { 20, make_wrong_request, BIND_REQ },
    { 10, make_wrong_request, CONNECT_REQ },
    { 40, make_wrong_request, CONNECT_RES },
    { 6, make_wrong_request, DISCONNECT_REQ },
    { 10, make_wrong_request, UNITDATA_REQ },
    { 24, make_misplaced_request, 0 },
    { 6, make_cut_request, 0 },

    { 3, make_unsupported, 0 },
    { 4, make_other_code, 0 },
    { 12, make_any_length, 0 },
    { 3, make_padded, 0 },
    { 2, make_data_by_itself, 0 },

    { 40, make_call, 0 },
    { 5, make_call_too_many, 0 },
    { 3, make_call_for_nobody, 0 },
    { 8, make_right_event, 'A' },
    { 4, make_right_event, 'D' },
    { 4, make_right_event, 'W' },
    { 12, make_right_event, 'R' },
    { 4, make_right_event, 'S' },
    { 10, make_misplaced_event, 0 },
    { 12, make_frame, 0 },
    { 4, make_frame_for_nobody, 0 },
    { 6, make_wrong_frame, 0 },

    { 5, make_for_no_stream, 0 },
    { 3, make_again, 0 },
};

#define CHOICES LENGTH_OF(choices)

static_assert(CHOICES <= PLAN_WEIGHTS, "the plan has a weight for each choice");

/* --- The plan of a capture */

/* Most captures add one PPA to eight, some try a ninth, and some add none. */
static unsigned plan_additions(struct dice *dice)
{
    if (dice_one_in(dice, 16))
        return 0;
    if (dice_one_in(dice, 4))
        return PPAS + 1 + dice_below(dice, 4);
    return 1 + dice_below(dice, PPAS);
}

static unsigned plan_streams(struct dice *dice)
{
    if (dice_one_in(dice, 4))
        return STREAMS;
    return 2 + dice_below(dice, STREAMS - 4);
}

/* Few, so that streams come to bind the same one. */
static uint8_t plan_sap(struct dice *dice)
{
    static const uint8_t saps[] = { 0x00, 0x02, 0x04, 0x08, 0x42, 0x80, 0x82, 0xaa, 0xe0, 0xfe };
    return saps[dice_below(dice, sizeof saps)];
}

static uint16_t plan_type(struct dice *dice)
{
    static const uint16_t types[] = { TYPE_FIRST, TYPE_FIRST + 1, 0x0800, 0x0806, 0x8137, 0x86dd, TYPE_LAST };
    return types[dice_below(dice, LENGTH_OF(types))];
}

/* A line's weight is up to eight times that in the table, so that a capture has its own leanings. */
static void plan_capture(struct plan *plan, struct dice *dice)
{
    plan->additions = plan_additions(dice);
    plan->streams = plan_streams(dice);
    plan->ends_reading = dice_one_in(dice, 5);
    for (unsigned i = 0; i < PLAN_SAPS; i++)
        plan->saps[i] = plan_sap(dice);
    for (unsigned i = 0; i < PLAN_TYPES; i++)
        plan->types[i] = plan_type(dice);
    plan->connectionless = dice_one_in(dice, 3) ? 2 : 6;
    for (size_t i = 0; i < CHOICES; i++)
        plan->weights[i] = choices[i].weight << dice_below(dice, 4);
}

void generate_start(struct generator *generator, uint64_t seed, uint64_t calls)
{
    *generator = (struct generator){ .dice = dice_from_seed(seed), .calls = calls };
    plan_capture(&generator->plan, &generator->dice);
    (void)second_fresh(generator->table, sizeof generator->table);
}

/* --- The next record */

static const struct choice *draw_choice(struct generator *generator)
{
    uint32_t sum = 0;
    for (size_t i = 0; i < CHOICES; i++)
        sum += generator->plan.weights[i];
    uint32_t drawn = dice_below(&generator->dice, sum);
    size_t i = 0;
    while (drawn >= generator->plan.weights[i])
        drawn -= generator->plan.weights[i++];
    return &choices[i];
}

/* Draws until one finds something to work on, as make_ppa always does. */
static void make_by_choice(struct generator *generator, struct record *record)
{
    const struct choice *choice;
    do {
        choice = draw_choice(generator);
    } while (!choice->make(generator, choice->subject, record));
}

/* Most captures begin with PPAs. */
static void make_first(struct generator *generator, struct record *record)
{
    if (dice_one_in(&generator->dice, 8))
        make_for_no_stream(generator, 0, record);
    else
        make_ppa(generator, 0, record);
}

/* In some captures that end the reading its last two calls are a datagram without its M and a cut M. */
static bool make_last_two(struct generator *generator, struct record *record)
{
    if (!generator->plan.ends_reading || generator->calls - generator->made != 1 ||
        !dice_one_in(&generator->dice, 3) || !make_cut_datagram(generator, 0, record))
        return false;
    generator->made++;
    return true;
}

/* The M of another stream, half the time behind a datagram that lacks its own. */
static bool make_stray_data(struct generator *generator, struct record *record)
{
    return record_lacks_data(&generator->last) && dice_one_in(&generator->dice, 2) &&
           make_data_by_itself(generator, 0, record);
}

static void make_next(struct generator *generator, struct record *record)
{
    if (generator->made == generator->calls && generator->plan.ends_reading)
        make_end_of_reading(generator, record);
    else if (generator->made <= generator->plan.additions)
        make_first(generator, record);
    else if (!make_last_two(generator, record) && !make_stray_data(generator, record))
        make_by_choice(generator, record);
}

bool generate_next(struct generator *generator, struct record *record)
{
    uint8_t room[SECOND_FRAME_ROOM_SIZE];
    if (generator->made == generator->calls)
        return false;
    generator->made++;
    make_next(generator, record);
    if (record_lacks_data(record))
        make_data_behind(generator, record);
    generator->last = *record;
    (void)second_call(generator->table, sizeof generator->table, record->bytes, record->size, room, sizeof room);
    return true;
}
