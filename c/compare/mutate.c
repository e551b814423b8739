/* The steps by which a capture becomes another form of itself. */
#include "mutate.h"

#include <string.h>

#include "../generate/array.h"
#include "alter.h"

/* A form in the making. */
struct mutation {
    const struct originals *originals;
    struct dice *dice;
    struct capture *form;
    size_t next; /* of the original records */
};

/* Takes one original record or two, and puts what becomes of them into the form. */
typedef void step(struct mutation *mutation);

static const struct record *take(struct mutation *mutation)
{
    return &mutation->originals->records[mutation->next++];
}

/* --- Steps to whole records */

static void keep(struct mutation *mutation)
{
    capture_add(mutation->form, take(mutation));
}

static void alter(struct mutation *mutation)
{
    struct record record = *take(mutation);
    size_t other = dice_below(mutation->dice, (uint32_t)mutation->originals->count);
    alter_record(mutation->dice, &record, &mutation->originals->records[other]);
    capture_add(mutation->form, &record);
}

static void leave_out(struct mutation *mutation)
{
    (void)take(mutation);
}

static void put_twice(struct mutation *mutation)
{
    const struct record *record = take(mutation);
    capture_add(mutation->form, record);
    capture_add(mutation->form, record);
}

static void swap(struct mutation *mutation)
{
    const struct record *first = take(mutation);
    if (mutation->next < mutation->originals->count)
        keep(mutation);
    capture_add(mutation->form, first);
}

/* A datagram's message and its M with the next record between them, or one of the two alone. */
static void part(struct mutation *mutation)
{
    struct record message = *take(mutation);
    struct record data = { .size = 0 };
    if (message.size == LONGEST_CALL) {
        message.size = LONGEST_RECORD;
        data.size = DATA_RECORD_SIZE;
        memcpy(data.bytes, message.bytes + LONGEST_RECORD, data.size);
    }
    if (!dice_one_in(mutation->dice, 4))
        capture_add(mutation->form, &message);
    if (mutation->next < mutation->originals->count && dice_one_in(mutation->dice, 2))
        keep(mutation);
    if (!dice_one_in(mutation->dice, 4))
        capture_add(mutation->form, &data);
}

static step *const whole_steps[] = {
    alter, alter, alter, alter, alter, alter, alter, leave_out, put_twice, swap, part
};

/* --- Steps that lose the beginning of the next record */

static void cut(struct mutation *mutation)
{
    struct record record = *take(mutation);
    record.size = dice_below(mutation->dice, (uint32_t)record.size);
    capture_add(mutation->form, &record);
}

static void put_junk_before(struct mutation *mutation)
{
    struct record junk;
    junk.size = 1 + dice_below(mutation->dice, LONGEST_CALL);
    for (size_t i = 0; i < junk.size; i++)
        junk.bytes[i] = (uint8_t)dice_any(mutation->dice);
    capture_add(mutation->form, &junk);
    keep(mutation);
}

static void change_kind(struct mutation *mutation)
{
    struct record record = *take(mutation);
    record.bytes[AT_KIND] = (uint8_t)dice_any(mutation->dice);
    capture_add(mutation->form, &record);
}

static step *const losing_steps[] = { cut, put_junk_before, change_kind };

/* --- The form */

static struct mutation start(const struct originals *originals, struct dice *dice, struct capture *form)
{
    form->size = 0;
    return (struct mutation){ .originals = originals, .dice = dice, .form = form };
}

void mutate_nothing(const struct originals *originals, struct capture *form)
{
    struct mutation mutation = start(originals, NULL, form);
    while (mutation.next < originals->count)
        keep(&mutation);
}

void mutate_capture(const struct originals *originals, struct dice *dice, struct capture *form)
{
    struct mutation mutation = start(originals, dice, form);
    uint32_t rarity = 4u << dice_below(dice, 5);
    bool loses = dice_one_in(dice, 4);
    while (mutation.next < originals->count)
        if (loses && dice_one_in(dice, 100))
            losing_steps[dice_below(dice, LENGTH_OF(losing_steps))](&mutation);
        else if (dice_one_in(dice, rarity))
            whole_steps[dice_below(dice, LENGTH_OF(whole_steps))](&mutation);
        else
            keep(&mutation);
}
