/* Keeping images, and the harms done to them. */
#include "damage.h"

#include <string.h>

#include "../generate/array.h"
#include "../generate/record.h"
#include "counter.h"

void damage_keep(struct kept *kept, struct dice *dice, const uint8_t *image)
{
    unsigned place = kept->count < MOST_KEPT ? kept->count++ : dice_below(dice, MOST_KEPT);
    memcpy(kept->images[place], image, KUNGTHEVI_TABLE_SIZE);
}

/* --- Harms to an image, sound or not */

typedef void harm(struct dice *dice, uint8_t *image);

/* To any value, a small one as most of the image's numbers are, or one bit away. */
static void harm_byte(struct dice *dice, uint8_t *byte)
{
    uint32_t drawn = dice_any(dice);
    switch (dice_below(dice, 4)) {
    case 0:
        *byte = (uint8_t)drawn;
        break;
    case 1:
        *byte = (uint8_t)(drawn % (STATES + 1));
        break;
    default:
        *byte ^= (uint8_t)(1u << drawn % 8);
    }
}

static uint8_t *draw_slot(struct dice *dice, uint8_t *image)
{
    return image + AT_SLOTS + SLOT_SIZE * dice_below(dice, STREAMS);
}

static uint8_t *draw_ppa_place(struct dice *dice, uint8_t *image)
{
    return image + AT_PPA_PLACES + PPA_PLACE_SIZE * dice_below(dice, PPAS);
}

static void harm_any(struct dice *dice, uint8_t *image)
{
    harm_byte(dice, image + dice_below(dice, KUNGTHEVI_TABLE_SIZE));
}

/* What stands before the places for PPAs. */
static void harm_header(struct dice *dice, uint8_t *image)
{
    harm_byte(dice, image + dice_below(dice, AT_PPA_PLACES));
}

static void harm_ppa(struct dice *dice, uint8_t *image)
{
    uint8_t *place = draw_ppa_place(dice, image);
    harm_byte(dice, place + dice_below(dice, PPA_PLACE_SIZE));
}

static void harm_slot(struct dice *dice, uint8_t *image)
{
    uint8_t *slot = draw_slot(dice, image);
    harm_byte(dice, slot + dice_below(dice, AT_NUMBERS + NUMBER_SIZE));
}

/* State, mode or count granted to another that some stream may have. */
static void change_standing(struct dice *dice, uint8_t *image)
{
    static const uint8_t states[] = { UNATTACHED, UNBOUND, IDLE, CALLING, RINGING, CONNECTED, USER_RESET, PEER_RESET };
    uint8_t *slot = draw_slot(dice, image);
    switch (dice_below(dice, 3)) {
    case 0:
        slot[AT_STATE] = states[dice_below(dice, sizeof states)];
        break;
    case 1:
        slot[AT_MODE] = (uint8_t)dice_below(dice, MODE_CONNECTIONLESS + 1);
        break;
    default:
        slot[AT_GRANTED] = (uint8_t)dice_below(dice, INDICATIONS + 2);
    }
}

/* One more open number, whether or not the stream may have it. */
static void add_number(struct dice *dice, uint8_t *image)
{
    uint8_t *slot = draw_slot(dice, image);
    if (slot[AT_INDICATIONS] >= INDICATIONS)
        return;
    put32(slot + AT_NUMBERS + NUMBER_SIZE * slot[AT_INDICATIONS], dice_any(dice));
    slot[AT_INDICATIONS]++;
}

static void clear_numbers(struct dice *dice, uint8_t *image)
{
    uint8_t *slot = draw_slot(dice, image);
    memset(slot + AT_INDICATIONS, 0, SLOT_SIZE - AT_INDICATIONS);
}

/* Two PPAs of one number. */
static void repeat_ppa(struct dice *dice, uint8_t *image)
{
    uint8_t *to = draw_ppa_place(dice, image);
    const uint8_t *from = draw_ppa_place(dice, image);
    memmove(to, from, NUMBER_SIZE);
}

/* Two streams that listen for the same, or with the same open numbers. */
static void repeat_slot(struct dice *dice, uint8_t *image)
{
    uint8_t *to = draw_slot(dice, image);
    const uint8_t *from = draw_slot(dice, image);
    memmove(to, from, dice_one_in(dice, 2) ? AT_INDICATIONS : SLOT_SIZE);
}

/* An open number twice on one stream, or one moved to where none is. */
static void repeat_number(struct dice *dice, uint8_t *image)
{
    uint8_t *numbers = draw_slot(dice, image) + AT_NUMBERS;
    uint32_t to = dice_below(dice, INDICATIONS);
    uint32_t from = dice_below(dice, INDICATIONS);
    memmove(numbers + NUMBER_SIZE * to, numbers + NUMBER_SIZE * from, NUMBER_SIZE);
}

static harm *const harms[] = {
    harm_any, harm_any, harm_header, harm_header, harm_ppa, harm_slot, harm_slot, change_standing, change_standing,
    change_standing, add_number, clear_numbers, repeat_ppa, repeat_slot, repeat_number
};

/* --- The image */

const size_t wrong_lengths[WRONG_LENGTHS] = { 0, 1, KUNGTHEVI_TABLE_SIZE - 1, KUNGTHEVI_TABLE_SIZE + 1, LARGEST_TABLE };

static size_t draw_wrong_length(struct dice *dice)
{
    uint32_t any = dice_below(dice, LARGEST_TABLE);
    uint32_t drawn = dice_below(dice, WRONG_LENGTHS + 1);
    return drawn < WRONG_LENGTHS ? wrong_lengths[drawn] : any;
}

size_t damage_draw(const struct kept *kept, struct dice *dice, uint8_t image[LARGEST_TABLE])
{
    memset(image, 0, LARGEST_TABLE);
    memcpy(image, kept->images[dice_below(dice, kept->count)], KUNGTHEVI_TABLE_SIZE);
    if (dice_one_in(dice, 16))
        return draw_wrong_length(dice);
    uint32_t times = dice_one_in(dice, 2) ? 1 : 1 + dice_below(dice, 3);
    if (dice_one_in(dice, 4)) {
        counter_move(dice, image);
        times--;
    }
    for (uint32_t i = 0; i < times; i++)
        harms[dice_below(dice, LENGTH_OF(harms))](dice, image);
    return KUNGTHEVI_TABLE_SIZE;
}
