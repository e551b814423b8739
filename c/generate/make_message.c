/* Messages with a code that is not served, and messages of an awkward length or padding. */
#include "make.h"

#include "array.h"
#include "message.h"
#include "pick.h"

static bool make_with_code(struct generator *generator, uint32_t code, struct record *record)
{
    int stream = pick_stream(generator, ALL_STATES);
    if (stream < 0)
        return false;
    message_start(generator, record, (unsigned)stream, code);
    message_finish(generator, record, CODE_SIZE);
    return true;
}

bool make_unsupported(struct generator *generator, uint32_t subject, struct record *record)
{
    static const uint8_t codes[] = { 0x0a, 0x15, 0x1b, 0x1d, 0x1e, 0x1f, 0x20 };
    (void)subject;
    return make_with_code(generator, codes[dice_below(&generator->dice, LENGTH_OF(codes))], record);
}

/* Codes of replies, codes next to those that are served, and any others. */
bool make_other_code(struct generator *generator, uint32_t subject, struct record *record)
{
    static const uint8_t codes[] = {
        0x03, 0x04, 0x05, 0x06, 0x08, 0x09, 0x0e, 0x10, 0x12, 0x14, 0x18, 0x1a, /* replies */
        0x16, 0x1c, 0x21, 0xff
    };
    (void)subject;
    uint32_t code = codes[dice_below(&generator->dice, LENGTH_OF(codes))];
    if (dice_one_in(&generator->dice, 4))
        code |= (uint32_t)0x100 << dice_below(&generator->dice, 24);
    else if (dice_one_in(&generator->dice, 4))
        code = pick_awkward(generator);
    return make_with_code(generator, code, record);
}

/* Each length from 0 to 97, those next to a bound more often, and any over that. */
static unsigned pick_length(struct generator *generator)
{
    static const uint8_t bounds[] = { 0, 1, 2, 3, 4, BLOCK_SIZE - 1, BLOCK_SIZE, BLOCK_SIZE + 1, 255 };
    if (dice_one_in(&generator->dice, 4))
        return bounds[dice_below(&generator->dice, sizeof bounds)];
    if (dice_one_in(&generator->dice, 8))
        return BLOCK_SIZE + 1 + dice_below(&generator->dice, 255 - BLOCK_SIZE);
    return dice_below(&generator->dice, BLOCK_SIZE + 1);
}

/* A message of any length, with any bytes up to it behind a small code. */
bool make_any_length(struct generator *generator, uint32_t subject, struct record *record)
{
    (void)subject;
    int stream = pick_stream(generator, ALL_STATES);
    if (stream < 0)
        return false;
    message_start(generator, record, (unsigned)stream, pick_small_code(generator));
    pick_bytes(generator, record->bytes + AT_BLOCK + CODE_SIZE, BLOCK_SIZE - CODE_SIZE);
    message_cut(record, pick_length(generator));
    return true;
}

/* A byte past L that is not zero: right behind L, the last of the block, or between. */
bool make_padded(struct generator *generator, uint32_t subject, struct record *record)
{
    if (!make_any_length(generator, subject, record))
        return false;
    unsigned length = message_length(record);
    if (length >= BLOCK_SIZE)
        return false;
    if (dice_one_in(&generator->dice, 3)) {
        length = dice_below(&generator->dice, CODE_SIZE);
        message_cut(record, length);
    }
    unsigned place = length + dice_below(&generator->dice, BLOCK_SIZE - length);
    if (dice_one_in(&generator->dice, 2))
        place = dice_one_in(&generator->dice, 2) ? length : BLOCK_SIZE - 1;
    record->bytes[AT_BLOCK + place] = (uint8_t)(1u << dice_below(&generator->dice, 8));
    return true;
}
