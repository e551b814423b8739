/* The course of a form, and the calls beside it. */
#include "play.h"

#include <stdio.h>
#include <string.h>

#include "counter.h"
#include "difference.h"

/* How often what happens, once in so many records. */
enum {
    SHORT_TRIES = 4,
    CUT_TRIES = 256, /* once in so many datagrams */
    DAMAGED_TRIES = 4,
    KEPT_IMAGES = 8,
    MOVED_COUNTERS = 16,
    FORMS_WITH_MOVED_COUNTERS = 3 /* once in so many forms */
};

struct play {
    struct comparison *comparison;
    struct dice *dice;
    size_t at;          /* where the record in hand begins */
    uint64_t call;      /* its number, from 1 */
    bool moves_counter; /* in this form */
    const char *unlike_replay;
    uint8_t rooms[2 * LARGEST_ROOM];     /* any bytes, of which a room takes some */
    uint8_t table[KUNGTHEVI_TABLE_SIZE]; /* that of both, as they agree */
};

/* --- One call to both */

static void tell_difference(const struct play *play, const struct lending *lending, const struct outcome *outcomes,
                            struct verdict verdict, const char *unlike_replay)
{
    struct difference difference = {
        .seed = play->comparison->seed,
        .form = play->comparison->form,
        .call = play->call,
        .verdict = verdict,
        .lending = lending,
        .outcomes = outcomes,
        .capture = &play->comparison->capture,
        .before = play->at,
        .unlike_replay = unlike_replay,
    };
    play->comparison->counts.differences++;
    difference_print(&difference);
    difference_keep(&difference, play->comparison->directory);
    (void)fflush(stdout); /* a provider gone wrong may yet end the program */
}

/* Returns whether they agree. */
static bool call_both(struct play *play, const struct lending *lending, const char *unlike_replay,
                      struct outcome outcomes[PROVIDERS])
{
    for (unsigned i = 0; i < PROVIDERS; i++)
        provider_call(&providers[i], lending, &outcomes[i]);
    counts_add_call(&play->comparison->counts, lending, &outcomes[LIBRARY]);
    struct verdict verdict = judge_call(lending, outcomes);
    if (verdict.what == NULL)
        return true;
    tell_difference(play, lending, outcomes, verdict, unlike_replay);
    return false;
}

/* --- What is lent */

static void fill_rooms(struct play *play)
{
    for (size_t i = 0; i < sizeof play->rooms; i++)
        play->rooms[i] = (uint8_t)dice_any(play->dice);
}

/* The rest of the capture as far as it can matter, at times what the call reads alone. */
static size_t draw_record_size(const struct play *play, const uint8_t *record, size_t rest)
{
    size_t size = record_size_of_call(record, rest);
    size_t most = LONGEST_CALL + dice_below(play->dice, LONGEST_CALL);
    if (dice_one_in(play->dice, 3) && size != 0)
        most = size;
    return most < rest ? most : rest;
}

static struct lending draw_lending(struct play *play)
{
    const struct capture *capture = &play->comparison->capture;
    struct lending lending = {
        .table = play->table,
        .table_size = sizeof play->table,
        .record = capture->bytes + play->at,
    };
    lending.record_size = draw_record_size(play, lending.record, capture->size - play->at);
    lending.room = play->rooms + dice_below(play->dice, LARGEST_ROOM + 1);
    lending.room_size = lending_room_needed(&lending) + dice_below(play->dice, MOST_SPARE_ROOM + 1);
    return lending;
}

/* Any that is too little, one byte less than is needed more often, and for a frame about what any other call needs. */
static size_t draw_little_room(const struct play *play, const struct lending *lending)
{
    size_t needed = lending_room_needed(lending);
    switch (dice_below(play->dice, 4)) {
    case 0:
        return needed - 1;
    case 1:
        return lending_is_frame(lending) ? KUNGTHEVI_ROOM_SIZE - dice_below(play->dice, 2) : needed - 1;
    default:
        return dice_below(play->dice, (uint32_t)needed);
    }
}

/* Fewer than are lent, half the time fewer than the call reads. */
static size_t draw_fewer_bytes(const struct play *play, const struct lending *lending)
{
    size_t size = record_size_of_call(lending->record, lending->record_size);
    if (size == 0 || dice_one_in(play->dice, 2))
        size = lending->record_size;
    return dice_below(play->dice, (uint32_t)size);
}

/* --- Calls along the way */

/* The record with too little room, with fewer bytes lent, or both. */
static bool try_short(struct play *play, struct lending lending)
{
    struct outcome outcomes[PROVIDERS];
    const char *unlike_replay = play->unlike_replay;
    if (!dice_one_in(play->dice, 4)) {
        lending.room_size = draw_little_room(play, &lending);
        unlike_replay = "the room lent was smaller";
    }
    if (dice_one_in(play->dice, 4))
        lending.record_size = draw_fewer_bytes(play, &lending);
    return call_both(play, &lending, unlike_replay, outcomes);
}

/* A datagram and its M cut at each byte. */
static bool try_cuts(struct play *play, struct lending lending)
{
    struct outcome outcomes[PROVIDERS];
    for (lending.record_size = 0; lending.record_size < LONGEST_CALL; lending.record_size++)
        if (comparison_is_over(play->comparison) || !call_both(play, &lending, play->unlike_replay, outcomes))
            return false;
    play->comparison->counts.datagrams_cut++;
    return true;
}

static bool is_datagram(const struct lending *lending)
{
    return record_size_of_call(lending->record, lending->record_size) == LONGEST_CALL;
}

/* The record for a damaged image, at times with a room of any size. */
static bool try_damaged(struct play *play, struct lending lending)
{
    struct outcome outcomes[PROVIDERS];
    uint8_t image[LARGEST_TABLE];
    lending.table = image;
    lending.table_size = damage_draw(&play->comparison->kept, play->dice, image);
    if (dice_one_in(play->dice, 4))
        lending.room_size = dice_below(play->dice, (uint32_t)lending_room_needed(&lending) + MOST_SPARE_ROOM + 1);
    bool agreed = call_both(play, &lending, "the table lent was damaged", outcomes);
    counts_add_damaged(&play->comparison->counts, outcomes[LIBRARY].answer);
    return agreed;
}

static void move_counter(struct play *play)
{
    counter_move(play->dice, play->table);
    play->comparison->counts.counters_moved++;
    play->unlike_replay = "the counter was moved on the way";
}

/* --- The course of a form */

/* Both make a fresh table out of so many bytes, whatever they are, or refuse to. Returns whether they agree. */
static bool fresh_both(struct play *play, size_t table_size, struct outcome outcomes[PROVIDERS])
{
    uint8_t table[LARGEST_TABLE];
    struct lending lending = {
        .table = table,
        .table_size = table_size,
        .record = play->rooms,
        .room = play->rooms,
    };
    memset(table, play->rooms[0], sizeof table);
    for (unsigned i = 0; i < PROVIDERS; i++)
        provider_fresh(&providers[i], &lending, &outcomes[i]);
    struct verdict verdict = judge_fresh(&lending, outcomes);
    if (verdict.what == NULL)
        return true;
    tell_difference(play, &lending, outcomes, verdict, "it was the making of a fresh table");
    return false;
}

/* Both begin with a fresh table, after all the wrong lengths. Returns whether they agree. */
static bool start(struct play *play)
{
    struct outcome outcomes[PROVIDERS];
    fill_rooms(play);
    for (size_t i = 0; i < WRONG_LENGTHS; i++)
        if (!fresh_both(play, wrong_lengths[i], outcomes))
            return false;
    if (!fresh_both(play, KUNGTHEVI_TABLE_SIZE, outcomes))
        return false;
    memcpy(play->table, outcomes[LIBRARY].table, sizeof play->table);
    damage_keep(&play->comparison->kept, play->dice, play->table);
    return true;
}

/* Returns whether both go on to a next record. */
static bool call_in_course(struct play *play, const struct lending *lending)
{
    struct outcome outcomes[PROVIDERS];
    if (!call_both(play, lending, play->unlike_replay, outcomes))
        return false;
    memcpy(play->table, outcomes[LIBRARY].table, sizeof play->table);
    if (dice_one_in(play->dice, KEPT_IMAGES))
        damage_keep(&play->comparison->kept, play->dice, play->table);
    play->at += outcomes[LIBRARY].record_size;
    return outcomes[LIBRARY].record_size != 0;
}

/* Each further call asks first whether there are enough. */
static bool play_record(struct play *play)
{
    play->call++;
    if (play->moves_counter && dice_one_in(play->dice, MOVED_COUNTERS))
        move_counter(play);
    struct lending lending = draw_lending(play);
    if (dice_one_in(play->dice, SHORT_TRIES) && !try_short(play, lending))
        return false;
    if (is_datagram(&lending) && dice_one_in(play->dice, CUT_TRIES) && !try_cuts(play, lending))
        return false;
    if (comparison_is_over(play->comparison))
        return false;
    if (dice_one_in(play->dice, DAMAGED_TRIES) && !try_damaged(play, lending))
        return false;
    if (comparison_is_over(play->comparison))
        return false;
    return call_in_course(play, &lending);
}

void play_form(struct comparison *comparison)
{
    struct play play = { .comparison = comparison, .dice = &comparison->dice };
    play.moves_counter = dice_one_in(play.dice, FORMS_WITH_MOVED_COUNTERS);
    bool goes_on = start(&play);
    while (goes_on && play.at < comparison->capture.size && !comparison_is_over(comparison))
        goes_on = play_record(&play);
}
