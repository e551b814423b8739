/*
 * bench.c - the bench: checks, texts, images of the table and calls that are
 * compared with what the test wants.
 */
#include <ctype.h>
#include <stdio.h>
#include <stdlib.h>
#include <string.h>

#include "bench.h"

const char *const standings[] = {
    "00", UNBOUND_SLOT, IDLE_SLOT, TYPE_SLOT, CALLING_SLOT, CALLED_SLOT,
    CONNECTED_SLOT, USER_RESET_SLOT, PEER_RESET_SLOT,
};

uint8_t *table_of(struct bench *b)
{
    return b->table_area + GUARD;
}

uint8_t *room_of(struct bench *b)
{
    return b->room_area + GUARD;
}

void check(struct bench *b, bool holds, const char *what)
{
    if (holds) {
        b->passed++;
    } else {
        b->failed++;
        printf("failed: %s: %s\n", b->topic, what);
    }
}

bool all_are(const uint8_t *bytes, size_t count, uint8_t byte)
{
    for (size_t i = 0; i < count; i++)
        if (bytes[i] != byte)
            return false;
    return true;
}

/* ---- texts ---- */

static unsigned digit(char c)
{
    return (unsigned)(isdigit((unsigned char)c) ? c - '0' : c - 'a' + 10);
}

/* Reads hex up to a semicolon or the end. Returns the count of bytes. */
static size_t parse_hex(const char **text, uint8_t *bytes)
{
    size_t count = 0;

    while (**text != '\0' && **text != ';') {
        if (**text == ' ') {
            (*text)++;
            continue;
        }
        bytes[count++] = (uint8_t)(digit((*text)[0]) * 16 + digit((*text)[1]));
        *text += 2;
    }
    return count;
}

size_t hex(const char *text, uint8_t *bytes)
{
    return parse_hex(&text, bytes);
}

/* The size of a record that is padded, else 0. */
static size_t padded_size(char kind)
{
    switch (kind) {
    case 'P':
    case 'C':
        return 99;
    case 'M':
        return 67;
    case 'u':
        return 11;
    case 'f':
        return 87;
    default:
        return 0;
    }
}

static size_t parse_record(const char **text, uint8_t *bytes)
{
    char kind = *(*text)++;
    size_t padded = padded_size(kind);
    size_t size = 1;

    memset(bytes, 0, padded);
    bytes[0] = (uint8_t)kind;
    if (strchr("GOIf", kind) == NULL) {
        char *after;

        bytes[size++] = (uint8_t)strtoul(*text, &after, 10);
        *text = after;
    }
    if (strchr("PCMu", kind) != NULL)
        bytes[2] = (uint8_t)parse_hex(text, bytes + 3);
    else
        size += parse_hex(text, bytes + size);
    return padded > 0 ? padded : size;
}

size_t parse_records(const char *text, uint8_t *bytes)
{
    size_t size = 0;

    while (*text != '\0') {
        if (*text == ' ' || *text == ';')
            text++;
        else
            size += parse_record(&text, bytes + size);
    }
    return size;
}

/* ---- images ---- */

void put_number(uint8_t *bytes, uint32_t value)
{
    for (int i = 3; i >= 0; i--) {
        bytes[i] = (uint8_t)value;
        value >>= 8;
    }
}

static void put_mask_bit(uint8_t *image, unsigned s, bool closed)
{
    uint8_t *byte = &image[MASK + (s < 8 ? 1 : 0)];
    uint8_t bit = (uint8_t)(1u << (s % 8));

    *byte = (uint8_t)(closed ? *byte | bit : *byte & ~bit);
}

void put_open(uint8_t *image, unsigned s, const char *slot)
{
    uint8_t *bytes = image + SLOTS + SLOT * s;

    memset(bytes, 0, SLOT);
    hex(slot, bytes);
    put_mask_bit(image, s, false);
}

void put_closed(uint8_t *image, unsigned s)
{
    memset(image + SLOTS + SLOT * s, 0, SLOT);
    put_mask_bit(image, s, true);
}

void put_ppa(uint8_t *image, unsigned place, const char *ppa)
{
    hex(ppa, image + PPA_PLACES + PPA_PLACE * place);
    image[PPA_COUNT] = (uint8_t)(place + 1);
}

void start(struct bench *b)
{
    uint8_t *image = table_of(b);

    memset(b->table_area, TABLE_GUARD_BYTE, sizeof b->table_area);
    memset(image, 0, SECOND_TABLE_SIZE);
    memset(image + MASK, 0xff, 2);
    image[OPENED] = 1;
    put_number(image + COUNTER, 0x11);
    put_ppa(image, 0, "00000001 020000000001");
    put_ppa(image, 1, "00000002 020000000002");
}

void start_fresh(struct bench *b)
{
    memset(b->table_area, TABLE_GUARD_BYTE, sizeof b->table_area);
    check(b, second_fresh(table_of(b), SECOND_TABLE_SIZE) == 0, "fresh table");
}

void stand(struct bench *b, unsigned s, const char *slot)
{
    put_open(table_of(b), s, slot);
}

void same_table(struct bench *b, const char *what)
{
    if (memcmp(table_of(b), b->want, SECOND_TABLE_SIZE) != 0)
        printf("the table differs after: %s\n", what);
    check(b, memcmp(table_of(b), b->want, SECOND_TABLE_SIZE) == 0, what);
}

/* ---- calls ---- */

static uint32_t one_call(struct bench *b, const uint8_t *record, size_t size,
                         size_t room_len, const char *what)
{
    uint32_t answer;

    memcpy(b->want, table_of(b), SECOND_TABLE_SIZE);
    memset(b->room_area, ROOM_BYTE, sizeof b->room_area);
    answer = second_call(table_of(b), SECOND_TABLE_SIZE, record, size,
                         room_of(b), room_len);
    check(b,
          all_are(b->table_area, GUARD, TABLE_GUARD_BYTE)
              && all_are(table_of(b) + SECOND_TABLE_SIZE, GUARD,
                         TABLE_GUARD_BYTE)
              && all_are(b->room_area, GUARD, ROOM_BYTE)
              && all_are(room_of(b) + room_len, ROOM_AREA + GUARD - room_len,
                         ROOM_BYTE),
          what);
    return answer;
}

static size_t room_for(const uint8_t *record)
{
    return record[0] == 'f' ? FRAME_ROOM : NEEDED_ROOM;
}

void refuse_bytes(struct bench *b, const uint8_t *record, size_t size,
                  size_t room_len, uint32_t refusal, const char *what)
{
    uint32_t answer = one_call(b, record, size, room_len, what);

    if (answer != refusal << 16)
        printf("refusal %u wanted, answer %08x: %s\n", (unsigned)refusal,
               (unsigned)answer, what);
    check(b, answer == refusal << 16, what);
    check(b, all_are(b->room_area, sizeof b->room_area, ROOM_BYTE), what);
    same_table(b, what);
}

void refuse(struct bench *b, const char *in, uint32_t refusal)
{
    uint8_t record[LONGEST_TEXT];
    size_t size = parse_records(in, record);

    refuse_bytes(b, record, size, room_for(record), refusal, in);
}

void serve_bytes(struct bench *b, const uint8_t *record, size_t size,
                 uint32_t token, const char *out, const char *what)
{
    uint8_t wanted[LONGEST_TEXT];
    size_t wanted_size = parse_records(out, wanted);
    uint32_t wanted_answer = token << 24 | (uint32_t)wanted_size;
    uint32_t answer = one_call(b, record, size, room_for(record), what);

    if (answer != wanted_answer)
        printf("answer %08x wanted, %08x given: %s\n", (unsigned)wanted_answer,
               (unsigned)answer, what);
    check(b, answer == wanted_answer, what);
    check(b, memcmp(room_of(b), wanted, wanted_size) == 0, what);
    check(b,
          all_are(room_of(b) + wanted_size, ROOM_AREA - wanted_size, ROOM_BYTE),
          what);
}

void serve(struct bench *b, const char *in, const char *out)
{
    uint8_t record[LONGEST_TEXT];
    size_t size = parse_records(in, record);

    serve_bytes(b, record, size, 0, out, in);
}

void serve_open(struct bench *b, unsigned s)
{
    serve_bytes(b, (const uint8_t *)"O", 1, s + 1, "", "O");
    put_open(b->want, s, "");
    b->want[OPENED] = 1;
    same_table(b, "O");
}

void error_bytes(struct bench *b, const uint8_t *record, size_t size,
                 unsigned code, const char *what)
{
    char out[LONGEST_TEXT];

    snprintf(out, sizeof out, "C %u 00000005 %02x%02x%02x%02x %08x 00000000",
             record[1], record[3], record[4], record[5], record[6], code);
    serve_bytes(b, record, size, 0, out, what);
    same_table(b, what);
}

void error(struct bench *b, const char *in, unsigned code)
{
    uint8_t record[LONGEST_TEXT];
    size_t size = parse_records(in, record);

    error_bytes(b, record, size, code, in);
}

void uderror_bytes(struct bench *b, const uint8_t *record, size_t size,
                   unsigned code, const char *what)
{
    char out[LONGEST_TEXT];

    snprintf(out, sizeof out, "P %u 00000009 00000000 00000000 00000000 %08x",
             record[1], code);
    serve_bytes(b, record, size, 0, out, what);
    same_table(b, what);
}

void uderror(struct bench *b, const char *in, unsigned code)
{
    uint8_t record[LONGEST_TEXT];
    size_t size = parse_records(in, record);

    uderror_bytes(b, record, size, code, in);
}

void message(uint8_t *record, uint8_t s, uint8_t length, const char *block)
{
    memset(record, 0, 99);
    record[0] = 'P';
    record[1] = s;
    record[2] = length;
    hex(block, record + 3);
}
