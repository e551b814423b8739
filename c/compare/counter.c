/* Drawing a place for the counter. */
#include "counter.h"

#include "../generate/image.h"
#include "../generate/record.h"

/* One of the open numbers of the table, each as likely as another, or 0 if it has none. */
static uint32_t draw_open_number(struct dice *dice, const uint8_t *image)
{
    uint32_t number = 0;
    uint32_t seen = 0;
    for (unsigned stream = 0; stream < STREAMS; stream++)
        for (unsigned place = 0; place < image_indications(image, stream); place++)
            if (dice_one_in(dice, ++seen))
                number = image_number(image, stream, place);
    return number;
}

void counter_move(struct dice *dice, uint8_t *image)
{
    uint32_t before = dice_below(dice, 3);
    uint32_t start = dice_one_in(dice, 3) ? 0 : draw_open_number(dice, image);
    put32(image + AT_COUNTER, start - before);
}
