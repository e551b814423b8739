/* replay.c - replays records from a file and prints what each call gives. */
#include "replay.h"

#include <stddef.h>
#include <stdint.h>

#include "capture.h"
#include "record.h"
#include "refusal.h"

static void print_hex(FILE *out, const uint8_t *bytes, size_t count)
{
    static const char digits[] = "0123456789abcdef";

    for (size_t i = 0; i < count; i++) {
        fputc(digits[bytes[i] >> 4], out);
        fputc(digits[bytes[i] & 0xf], out);
    }
}

/* One line: the call's number, the kind, the stream and the other fields. */
static void print_record(FILE *out, unsigned long long n, const uint8_t *record)
{
    const uint8_t *fields = record + 2;
    size_t count = second_record_out_size(record[0]) - 2;

    if (second_is_message(record[0])) {
        count = *fields; /* L */
        fields++;
    }
    fprintf(out, "%llu %c %u", n, record[0], record[1]);
    if (count > 0)
        fputc(' ', out);
    print_hex(out, fields, count);
    fputc('\n', out);
}

static void print_records(FILE *out, unsigned long long n, const uint8_t *room,
                          size_t size)
{
    for (size_t at = 0; at < size; at += second_record_out_size(room[at]))
        print_record(out, n, room + at);
}

static void print_turn(FILE *out, unsigned long long n, const struct turn *turn)
{
    if (turn->refusal != SERVED)
        fprintf(out, "%llu refused %u\n", n, (unsigned)turn->refusal);
    else if (turn->opened.value != 0)
        fprintf(out, "%llu open %u\n", n, (unsigned)turn->opened.value - 1);
    else if (turn->size == 0)
        fprintf(out, "%llu ok\n", n);
    else
        print_records(out, n, turn->room, turn->size);
}

enum ending second_replay(FILE *in, FILE *out)
{
    struct capture capture;
    struct turn turn;
    unsigned long long records = 0; /* every numbered call */
    unsigned long long refused = 0;

    second_begin_capture(&capture, in);
    fputs("dlpi replay\n", out);
    while (!ferror(out) && second_next_turn(&capture, &turn)) {
        records++;
        if (turn.refusal != SERVED)
            refused++;
        print_turn(out, records, &turn);
    }
    if (ferror(in))
        return READING_FAILED;
    if (ferror(out))
        return WRITING_FAILED;

    fprintf(out, "%llu records, %llu refused\n", records, refused);
    return fflush(out) == 0 && !ferror(out) ? DONE : WRITING_FAILED;
}
