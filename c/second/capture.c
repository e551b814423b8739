/* capture.c - reads a capture, one call for each record. */
#include "capture.h"

#include <string.h>

void second_begin_capture(struct capture *capture, FILE *file)
{
    capture->file = file;
    capture->start = 0;
    capture->end = 0;
    capture->ended = false;
    second_fresh(capture->table, sizeof capture->table);
}

static size_t bytes_left(const struct capture *capture)
{
    return capture->end - capture->start;
}

/*
 * Makes all that the next call may read stand in the buffer, unless the file
 * ends before: a control record of code 0x07 is not judged without the bytes
 * behind it. False if reading fails.
 */
static bool fill(struct capture *capture)
{
    if (bytes_left(capture) >= PAIR_SIZE || feof(capture->file))
        return true;

    memmove(capture->bytes, capture->bytes + capture->start,
            bytes_left(capture));
    capture->end -= capture->start;
    capture->start = 0;
    capture->end += fread(capture->bytes + capture->end, 1,
                          CAPTURE_BUFFER_SIZE - capture->end, capture->file);
    return !ferror(capture->file);
}

static void take_answer(uint32_t answer, struct turn *turn)
{
    turn->size = answer & 0xffff;
    turn->refusal = (enum refusal)(answer >> 16 & 0xff);
    turn->opened.value = answer >> 24;
}

bool second_next_turn(struct capture *capture, struct turn *turn)
{
    size_t left;
    uint32_t size;

    if (capture->ended || !fill(capture) || bytes_left(capture) == 0)
        return false;

    left = bytes_left(capture);
    turn->record = capture->bytes + capture->start;
    take_answer(second_call(capture->table, sizeof capture->table,
                            turn->record, left, turn->room, sizeof turn->room),
                turn);

    size = second_record_size(turn->record, left);
    capture->start += size;
    capture->ended = size == 0;
    return true;
}
