#include "pick.h"

#include "array.h"
#include "image.h"

int pick_stream_where(struct generator *generator, stream_test *test, unsigned argument)
{
    unsigned found[STREAMS];
    unsigned count = 0;
    for (unsigned stream = 0; stream < STREAMS; stream++)
        if (test(generator->table, stream, argument))
            found[count++] = stream;
    return count == 0 ? -1 : (int)found[dice_below(&generator->dice, count)];
}

static bool is_in_state(const uint8_t *image, unsigned stream, unsigned state)
{
    return image_is_open(image, stream) && image_state(image, stream) == state;
}

int pick_stream(struct generator *generator, unsigned states)
{
    unsigned found[STATES];
    unsigned count = 0;
    for (unsigned state = 0; state < STATES; state++)
        for (unsigned stream = 0; stream < STREAMS; stream++)
            if ((states & STATE(state)) != 0 && is_in_state(generator->table, stream, state)) {
                found[count++] = state;
                break;
            }
    if (count == 0)
        return -1;
    return pick_stream_where(generator, is_in_state, found[dice_below(&generator->dice, count)]);
}

static bool is_closed(const uint8_t *image, unsigned stream, unsigned unused)
{
    (void)unused;
    return !image_is_open(image, stream);
}

unsigned pick_no_stream(struct generator *generator)
{
    int closed = pick_stream_where(generator, is_closed, 0);
    if (closed >= 0 && !dice_one_in(&generator->dice, 3))
        return (unsigned)closed;
    if (dice_one_in(&generator->dice, 3))
        return STREAMS;
    return STREAMS + dice_below(&generator->dice, 256 - STREAMS);
}

/* Such a stream stays idle until it is unbound, and then has no mode. */
bool is_connectionless(const uint8_t *image, unsigned stream, unsigned unused)
{
    (void)unused;
    return image_mode(image, stream) == MODE_CONNECTIONLESS;
}

static bool is_connectionless_beside(const uint8_t *image, unsigned stream, unsigned other)
{
    return is_connectionless(image, stream, 0) && image_ppa(image, stream) == image_ppa(image, other);
}

int pick_connectionless_beside(struct generator *generator, unsigned stream)
{
    return pick_stream_where(generator, is_connectionless_beside, stream);
}

int pick_ppa(struct generator *generator)
{
    unsigned count = image_ppas(generator->table);
    if (count == 0)
        return -1;
    if (dice_one_in(&generator->dice, 2))
        return 0;
    return (int)dice_below(&generator->dice, count);
}

uint32_t pick_unknown_ppa(struct generator *generator)
{
    for (;;) {
        uint32_t number = pick_awkward(generator);
        int place = pick_ppa(generator);
        if (place >= 0 && dice_one_in(&generator->dice, 2))
            number = pick_near(generator, image_ppa_number(generator->table, (unsigned)place));
        if (image_find_ppa(generator->table, number) < 0)
            return number;
    }
}

uint32_t pick_open_number(struct generator *generator, unsigned stream)
{
    unsigned count = image_indications(generator->table, stream);
    if (count == 0)
        return 0;
    return image_number(generator->table, stream, dice_below(&generator->dice, count));
}

static bool holds_numbers(const uint8_t *image, unsigned stream, unsigned other_than)
{
    return stream != other_than && image_indications(image, stream) > 0;
}

/* One that is open on another stream, was given out, is still to come, or was never given. */
static uint32_t pick_any_number(struct generator *generator, unsigned stream)
{
    uint32_t counter = image_counter(generator->table);
    int holder = pick_stream_where(generator, holds_numbers, stream);
    switch (dice_below(&generator->dice, 6)) {
    case 0:
    case 1:
        return holder >= 0 ? pick_open_number(generator, (unsigned)holder) : 0;
    case 2:
        return 1 + dice_below(&generator->dice, counter);
    case 3:
        return counter;
    case 4:
        return pick_near(generator, pick_open_number(generator, stream));
    default:
        return pick_awkward(generator);
    }
}

uint32_t pick_foreign_number(struct generator *generator, unsigned stream)
{
    for (;;) {
        uint32_t number = pick_any_number(generator, stream);
        if (image_find_number(generator->table, stream, number) < 0)
            return number;
    }
}

uint32_t pick_small_code(struct generator *generator)
{
    return dice_one_in(&generator->dice, 4) ? UNITDATA_REQ : dice_below(&generator->dice, SMALL_CODES);
}

unsigned pick_sap(struct generator *generator)
{
    if (!dice_one_in(&generator->dice, 8))
        return generator->plan.saps[dice_below(&generator->dice, PLAN_SAPS)];
    unsigned sap = 2 * dice_below(&generator->dice, SAP_END / 2);
    return sap == SAP_RESERVED ? 0 : sap;
}

unsigned pick_type(struct generator *generator)
{
    if (dice_one_in(&generator->dice, 4))
        return TYPE_FIRST + dice_below(&generator->dice, TYPE_LAST - TYPE_FIRST + 1);
    return generator->plan.types[dice_below(&generator->dice, PLAN_TYPES)];
}

uint32_t pick_awkward(struct generator *generator)
{
    static const uint32_t numbers[] = {
        0, 1, 2, 7, 8, 16, 17, 24, 0x7f, 0x80, 0xff, 0x100, 0xffff, 0x10000, 0x7fffffff, 0x80000000, 0xfffffff9,
        0xfffffffe, 0xffffffff
    };
    uint32_t any = dice_any(&generator->dice);
    if (dice_one_in(&generator->dice, 4))
        return any;
    return numbers[any % LENGTH_OF(numbers)];
}

uint32_t pick_near(struct generator *generator, uint32_t value)
{
    switch (dice_below(&generator->dice, 4)) {
    case 0:
        return value + 1;
    case 1:
        return value - 1;
    default:
        return value ^ (uint32_t)1 << dice_below(&generator->dice, 32);
    }
}

void pick_bytes(struct generator *generator, uint8_t *bytes, size_t size)
{
    for (size_t i = 0; i < size; i++)
        bytes[i] = (uint8_t)dice_any(&generator->dice);
}

void pick_bit(struct generator *generator, uint8_t *bytes, size_t size)
{
    uint8_t *byte = bytes + dice_below(&generator->dice, (uint32_t)size);
    *byte ^= (uint8_t)(1u << dice_below(&generator->dice, 8));
}
