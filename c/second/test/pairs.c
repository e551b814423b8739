/*
 * pairs.c - tests what a call reads of a datagram: the control record of code
 * 0x07 and, right behind it, its M; and the refusals of the two.
 */
#include <stdint.h>
#include <string.h>

#include "bench.h"
#include "datagrams.h"
#include "groups.h"
#include "../second.h"

enum {
    CONTROL = 99,
    DATA = 67,
    PAIR = 166,
    CODE = 3,                 /* of the control record */
    DATA_STREAM = CONTROL + 1,
    DATA_LENGTH = CONTROL + 2,
    DATA_BYTES = CONTROL + 3
};

#define SENT "u 2 02000000000284; M 2 6869"

static void start_board(struct bench *b)
{
    start(b);
    stand(b, 2, BOARD_SLOT);
}

/* A datagram that is served. */
static void right_pair(uint8_t *pair)
{
    parse_records(TO_SAP("84") DATA_OF_2, pair);
}

/* The same with another L. The block's bytes past L are zero. */
static void pair_of_length(uint8_t *pair, unsigned length)
{
    right_pair(pair);
    pair[2] = (uint8_t)length;
    if (length < 96)
        memset(pair + 3 + length, 0, 96 - length);
}

/* The bytes end where the array ends, so that no byte behind can be read. */
static const uint8_t *cut_to(size_t size, uint8_t area[PAIR])
{
    uint8_t pair[PAIR];

    right_pair(pair);
    memcpy(area + PAIR - size, pair, size);
    return area + PAIR - size;
}

static void has_size(struct bench *b, const uint8_t *record, size_t record_len,
                     uint32_t size, const char *what)
{
    check(b, second_record_size(record, record_len) == size, what);
}

/* A control record without its M: 10, and reading goes on behind it. */
static void lacks_data(struct bench *b, const uint8_t *record, size_t size,
                       const char *what)
{
    refuse_bytes(b, record, size, NEEDED_ROOM, 10, what);
    refuse_bytes(b, record, size, 0, 10, what);
    has_size(b, record, size, CONTROL, what);
}

static void test_pair(struct bench *b)
{
    uint8_t pair[PAIR + 1];

    b->topic = "a datagram's two records";
    start_board(b);
    right_pair(pair);
    pair[PAIR] = 0xff;
    serve_bytes(b, pair, PAIR, 0, SENT, "a pair");
    same_table(b, "a pair");
    has_size(b, pair, PAIR, PAIR, "a pair");
    serve_bytes(b, pair, PAIR + 1, 0, SENT, "bytes behind it stay unread");
    has_size(b, pair, PAIR + 1, PAIR, "bytes behind it");
    pair[0] = 'C';
    serve_bytes(b, pair, PAIR, 0, SENT, "C and P are treated alike");
    has_size(b, pair, PAIR, PAIR, "C and P are treated alike");
}

static void test_cut_pairs(struct bench *b)
{
    b->topic = "a datagram cut at each byte";
    start_board(b);
    for (size_t size = 0; size < PAIR; size++) {
        uint8_t area[PAIR];
        const uint8_t *record = cut_to(size, area);

        refuse_bytes(b, record, size, NEEDED_ROOM, 10, "cut");
        has_size(b, record, size, size < CONTROL ? 0 : CONTROL, "cut");
    }
}

/* Nothing, another kind, an M of another stream. */
static void test_something_else_behind(struct bench *b)
{
    uint8_t pair[2 * PAIR];

    b->topic = "something else behind code 0x07";
    start_board(b);
    stand(b, 3, BOARD_SLOT);
    right_pair(pair);
    for (unsigned kind = 0; kind < 256; kind++)
        if (kind != 'M') {
            pair[CONTROL] = (uint8_t)kind;
            lacks_data(b, pair, PAIR, "another kind");
        }
    right_pair(pair);
    for (unsigned s = 0; s < 256; s++)
        if (s != 2) {
            pair[DATA_STREAM] = (uint8_t)s;
            lacks_data(b, pair, PAIR, "an M of another stream");
        }
    right_pair(pair);
    right_pair(pair + CONTROL);
    lacks_data(b, pair, CONTROL + PAIR, "a datagram behind it");
    serve_bytes(b, pair + CONTROL, PAIR, 0, SENT, "that datagram");

    right_pair(pair);
    memmove(pair + CONTROL + 1, pair + CONTROL, DATA);
    pair[CONTROL] = 'O';
    lacks_data(b, pair, PAIR + 1, "an O between the two");
}

static void test_data_by_itself(struct bench *b)
{
    uint8_t data[DATA + PAIR];

    b->topic = "an M by itself";
    start_board(b);
    parse_records(DATA_OF_2 TO_SAP("84") DATA_OF_2, data);
    refuse_bytes(b, data, DATA, NEEDED_ROOM, 10, "M");
    refuse_bytes(b, data, DATA, 0, 10, "10 before 1");
    refuse_bytes(b, data, DATA + PAIR, NEEDED_ROOM, 10, "a datagram behind it");
    has_size(b, data, DATA, DATA, "M");
    has_size(b, data, DATA + PAIR, DATA, "a datagram behind it");
    for (size_t size = 0; size < DATA; size++) {
        uint8_t area[DATA];
        uint8_t *cut = area + DATA - size;

        memcpy(cut, data, size);
        refuse_bytes(b, cut, size, NEEDED_ROOM, 10, "cut M");
        has_size(b, cut, size, 0, "cut M");
    }
    data[1] = 255;
    data[2] = 65;
    refuse_bytes(b, data, DATA, NEEDED_ROOM, 10, "10 before 2 and 5");
    has_size(b, data, DATA, DATA, "whatever is wrong inside");
}

/* Whatever else is wrong inside either, the two are one call. */
static void test_wrong_inside(struct bench *b)
{
    uint8_t pair[PAIR];

    b->topic = "wrong inside, yet a pair";
    for (unsigned length = 4; length <= 96; length++) {
        pair_of_length(pair, length);
        has_size(b, pair, PAIR, PAIR, "L 4 to 96");
        memset(pair + CODE + 4, 0xff, 92);
        has_size(b, pair, PAIR, PAIR, "any block behind the code");
    }
    right_pair(pair);
    for (unsigned length = 0; length < 256; length++) {
        pair[DATA_LENGTH] = (uint8_t)length;
        memset(pair + DATA_BYTES, (int)length, 64);
        has_size(b, pair, PAIR, PAIR, "any data");
    }
    for (unsigned s = 0; s < 256; s++) {
        pair[1] = (uint8_t)s;
        pair[DATA_STREAM] = (uint8_t)s;
        has_size(b, pair, PAIR, PAIR, "any stream");
    }
}

/* With L under 4 or over 96 no M belongs to it: refusals as for any message. */
static void test_no_data_belongs(struct bench *b)
{
    uint8_t pair[PAIR];

    b->topic = "L under 4 or over 96 with code 0x07";
    start_board(b);
    for (unsigned length = 0; length < 256; length++) {
        uint32_t refusal;

        if (length >= 4 && length <= 96)
            continue;
        pair_of_length(pair, length);
        refusal = length < 4 ? 4 : 5;
        refuse_bytes(b, pair, PAIR, NEEDED_ROOM, refusal, "an M behind it");
        refuse_bytes(b, pair, CONTROL, NEEDED_ROOM, refusal, "nothing behind");
        has_size(b, pair, PAIR, CONTROL, "an M behind it");
        has_size(b, pair, CONTROL, CONTROL, "nothing behind it");
        refuse_bytes(b, pair + CONTROL, DATA, NEEDED_ROOM, 10, "the M then");

        pair[DATA_LENGTH] = 65;
        refuse_bytes(b, pair, PAIR, 127, 1, "1 before 4 and 5");
        pair[1] = 3;
        refuse_bytes(b, pair, PAIR, NEEDED_ROOM, 2, "2 before 4 and 5");
    }
    right_pair(pair);
    pair[2] = 3;
    refuse_bytes(b, pair, PAIR, NEEDED_ROOM, 10, "the code's last byte past L");
    has_size(b, pair, PAIR, CONTROL, "the code's last byte past L");
}

/* An M belongs to no other code. */
static void test_other_codes(struct bench *b)
{
    static const char *const codes[] = {
        "00000003", "00000006", "00000008", "00000107", "07000000", "00000700",
        "80000007",
    };
    uint8_t pair[PAIR];

    b->topic = "an M behind another code";
    start_board(b);
    for (size_t i = 0; i < COUNT(codes); i++) {
        right_pair(pair);
        hex(codes[i], pair + CODE);
        error_bytes(b, pair, PAIR, BADPRIM, codes[i]);
        has_size(b, pair, PAIR, CONTROL, codes[i]);
    }
    hex("00000011", pair + CODE);
    serve_bytes(b, pair, PAIR, 0, "C 2 00000012 00000003", "TOKEN_REQ");
}

static void test_padding(struct bench *b)
{
    uint8_t pair[PAIR];

    b->topic = "padding of a datagram";
    start_board(b);
    for (unsigned length = 4; length < 96; length++) {
        pair_of_length(pair, length);
        pair[3 + length] = 1;
        refuse_bytes(b, pair, PAIR, NEEDED_ROOM, 10, "block, first byte");
        refuse_bytes(b, pair, PAIR, 0, 10, "10 before 1");
        has_size(b, pair, PAIR, PAIR, "reading goes on behind the M");
        pair_of_length(pair, length);
        pair[98] = 0x80;
        refuse_bytes(b, pair, PAIR, NEEDED_ROOM, 10, "block, last byte");
    }
    for (unsigned length = 0; length < 64; length++) {
        right_pair(pair);
        memset(pair + DATA_BYTES, 0, 64);
        pair[DATA_LENGTH] = (uint8_t)length;
        pair[DATA_BYTES + length] = 1;
        refuse_bytes(b, pair, PAIR, NEEDED_ROOM, 10, "data, first byte");
        refuse_bytes(b, pair, PAIR, 0, 10, "10 before 1");
        has_size(b, pair, PAIR, PAIR, "reading goes on behind the M");
        pair[DATA_BYTES + length] = 0;
        pair[PAIR - 1] = 0x80;
        refuse_bytes(b, pair, PAIR, NEEDED_ROOM, 10, "data, last byte");
        pair[1] = 3;
        pair[DATA_STREAM] = 3;
        refuse_bytes(b, pair, PAIR, NEEDED_ROOM, 10, "10 before 2");
    }
}

/* Data over 64 leaves no padding to test. */
static void test_long_data(struct bench *b)
{
    uint8_t pair[PAIR];

    b->topic = "data over 64";
    start_board(b);
    for (unsigned length = 65; length < 256; length++) {
        right_pair(pair);
        pair[DATA_LENGTH] = (uint8_t)length;
        memset(pair + DATA_BYTES, 0xff, 64);
        refuse_bytes(b, pair, PAIR, NEEDED_ROOM, 5, "data over 64");
        refuse_bytes(b, pair, PAIR, 127, 1, "1 before 5");
        pair[1] = 3;
        pair[DATA_STREAM] = 3;
        refuse_bytes(b, pair, PAIR, NEEDED_ROOM, 2, "2 before 5");
        pair[1] = 2;
        pair[DATA_STREAM] = 2;
        pair[98] = 1;
        refuse_bytes(b, pair, PAIR, NEEDED_ROOM, 10, "10 before 5: the block");
    }
    pair_of_length(pair, 4);
    pair[DATA_LENGTH] = 65;
    refuse_bytes(b, pair, PAIR, NEEDED_ROOM, 5, "5 before BADPRIM");
    stand(b, 2, IDLE_SLOT);
    right_pair(pair);
    pair[DATA_LENGTH] = 65;
    refuse_bytes(b, pair, PAIR, NEEDED_ROOM, 5, "5 before OUTSTATE");
}

static void test_rooms_and_streams(struct bench *b)
{
    static const uint8_t streams[] = { 0, 3, 15, 16, 128, 255 };
    uint8_t pair[PAIR];

    b->topic = "rooms and streams of datagrams";
    start_board(b);
    right_pair(pair);
    for (size_t room_len = 0; room_len < 128; room_len++)
        refuse_bytes(b, pair, PAIR, room_len, 1, "room under 128");
    check(b,
          second_call(table_of(b), SECOND_TABLE_SIZE, pair, PAIR, NULL, 0)
              == 1u << 16,
          "no room");
    serve_bytes(b, pair, PAIR, 0, SENT, "room 128");
    for (size_t i = 0; i < COUNT(streams); i++) {
        pair[1] = streams[i];
        pair[DATA_STREAM] = streams[i];
        refuse_bytes(b, pair, PAIR, NEEDED_ROOM, 2, "not open, or over 15");
        refuse_bytes(b, pair, PAIR, 127, 1, "1 before 2");
    }
}

/* 16 is tested before all others. */
static void test_unsound_table(struct bench *b)
{
    uint8_t pair[PAIR];

    b->topic = "datagrams on a table that isn't sound";
    start_board(b);
    table_of(b)[OPENED] = 2;
    right_pair(pair);
    refuse_bytes(b, pair, PAIR, NEEDED_ROOM, 16, "a pair");
    refuse_bytes(b, pair, CONTROL, 0, 16, "without its M");
    refuse_bytes(b, pair + CONTROL, DATA, 0, 16, "an M by itself");
}

void run_pairs(struct bench *b)
{
    test_pair(b);
    test_cut_pairs(b);
    test_something_else_behind(b);
    test_data_by_itself(b);
    test_wrong_inside(b);
    test_no_data_belongs(b);
    test_other_codes(b);
    test_padding(b);
    test_long_data(b);
    test_rooms_and_streams(b);
    test_unsound_table(b);
}
