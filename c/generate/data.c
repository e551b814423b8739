#include "data.h"

#include "pick.h"

static unsigned pick_length(struct generator *generator)
{
    static const uint8_t bounds[] = { 0, 1, DATA_SIZE - 1, DATA_SIZE };
    if (dice_one_in(&generator->dice, 3))
        return bounds[dice_below(&generator->dice, sizeof bounds)];
    return dice_below(&generator->dice, DATA_SIZE + 1);
}

void data_fill(struct generator *generator, uint8_t *data)
{
    data[0] = (uint8_t)pick_length(generator);
    pick_bytes(generator, data + 1, data[0]);
}

void data_spoil_length(struct generator *generator, uint8_t *data)
{
    unsigned over = 1;
    if (dice_one_in(&generator->dice, 2))
        over += dice_below(&generator->dice, UINT8_MAX - DATA_SIZE);
    data[0] = (uint8_t)(DATA_SIZE + over);
}

void data_spoil_padding(struct generator *generator, uint8_t *data)
{
    if (data[0] >= DATA_SIZE)
        return;
    unsigned place = data[0] + dice_below(&generator->dice, DATA_SIZE - data[0]);
    if (dice_one_in(&generator->dice, 2))
        place = dice_one_in(&generator->dice, 2) ? data[0] : DATA_SIZE - 1;
    data[1 + place] = (uint8_t)(1u << dice_below(&generator->dice, 8));
}
