/* refusals.c - tests the refusals 1 to 10 and the order they are tested in. */
#include <stdint.h>
#include <stdio.h>
#include <string.h>

#include "bench.h"
#include "groups.h"
#include "../second.h"

static void test_refusal_1(struct bench *b)
{
    static const char *const records[] = {
        "G 00000003 020000000003", "O", "X 0", "P 0 00000000", "C 0 00000000",
        "I 00000001 02000000000180 02000000000284", "A 1 02000000000984",
        "D 1 00000000", "W 2 00000005 00000000", "R 3 00000000", "S 4",
    };

    b->topic = "refusal 1";
    start(b);
    stand(b, 0, IDLE_SLOT);
    stand(b, 1, "08 01 0082 00000001");
    stand(b, 2, "09 01 0084 00000001 01 01 00000005");
    stand(b, 3, "0b 01 0082 00000001");
    stand(b, 4, "0c 01 0082 00000001");
    for (size_t i = 0; i < COUNT(records); i++) {
        uint8_t record[LONGEST_TEXT];
        size_t size = parse_records(records[i], record);

        for (size_t room_len = 0; room_len < 128; room_len++)
            refuse_bytes(b, record, size, room_len, 1, records[i]);
        check(b,
              second_call(table_of(b), SECOND_TABLE_SIZE, record, size, NULL,
                          0) == 1u << 16,
              "no room");
    }
}

static void test_refusal_2(struct bench *b)
{
    static const struct {
        char kind;
        size_t size;
    } kinds[] = {
        { 'X', 2 }, { 'P', 99 }, { 'C', 99 }, { 'A', 9 }, { 'D', 6 },
        { 'W', 10 }, { 'R', 6 }, { 'S', 2 },
    };
    static const uint8_t streams[] = { 1, 15, 16, 17, 128, 255 };

    b->topic = "refusal 2";
    start(b);
    stand(b, 0, "00");
    for (size_t i = 0; i < COUNT(kinds); i++)
        for (size_t j = 0; j < sizeof streams; j++) {
            uint8_t record[99] = { 0 };

            record[0] = (uint8_t)kinds[i].kind;
            record[1] = streams[j];
            refuse_bytes(b, record, kinds[i].size, NEEDED_ROOM, 2,
                         "stream over 15, or not open");
        }
}

static void test_refusal_3(struct bench *b)
{
    b->topic = "refusal 3";
    start_fresh(b);
    for (unsigned s = 0; s < 16; s++)
        serve_open(b, s);
    refuse(b, "O", 3);
    serve(b, "X 11", "");
    put_closed(b->want, 11);
    same_table(b, "X 11");
    serve(b, "X 5", "");
    put_closed(b->want, 5);
    same_table(b, "X 5");
    serve_open(b, 5);
    serve_open(b, 11);
    refuse(b, "O", 3);
}

static void test_refusals_4_and_5(struct bench *b)
{
    uint8_t record[99];

    b->topic = "refusals 4 and 5";
    start(b);
    stand(b, 0, "00");
    for (unsigned length = 0; length < 4; length++) {
        message(record, 0, (uint8_t)length, "");
        refuse_bytes(b, record, 99, NEEDED_ROOM, 4, "L under 4");
    }
    for (unsigned length = 97; length < 256; length++) {
        message(record, 0, (uint8_t)length, "00000011");
        refuse_bytes(b, record, 99, NEEDED_ROOM, 5, "L over 96");
    }
    memset(record + 3, 0xff, 96);
    refuse_bytes(b, record, 99, NEEDED_ROOM, 5, "L over 96 has no padding");
    message(record, 0, 96, "00000011");
    record[98] = 1;
    serve_bytes(b, record, 99, 0, "C 0 00000012 00000001", "L 96");
}

static void test_refusal_6(struct bench *b)
{
    b->topic = "refusal 6";
    start(b);
    stand(b, 0, CALLED_SLOT);
    stand(b, 1, "09 01 0082 00000001 02 01 00000006");
    refuse(b, "W 0 00000006 00000000", 6);
    refuse(b, "W 0 00000000 00000000", 6);
    refuse(b, "W 1 00000005 00000000", 6);
    refuse(b, "D 0 00000000", 6);
}

static void test_refusal_7(struct bench *b)
{
    b->topic = "refusal 7";
    start(b);
    stand(b, 0, IDLE_SLOT);
    stand(b, 1, "06 01 0082 00000002 01");
    stand(b, 2, "06 01 0084 00000001 00");
    stand(b, 3, "06 02 0086 00000001 00");
    refuse(b, "I 00000003 02000000000180 02000000000284", 7);
    refuse(b, "I 00000000 02000000000180 02000000000284", 7);
    refuse(b, "I 00000001 02000000000280 02000000000284", 7);
    refuse(b, "I 00000001 03000000000180 02000000000284", 7);
    refuse(b, "I 00000001 02000000000182 02000000000284", 7);
    refuse(b, "I 00000001 02000000000184 02000000000284", 7);
    refuse(b, "I 00000001 02000000000186 02000000000284", 7);
    refuse(b, "I 00000002 02000000000280 02000000000284", 7);
}

static void test_refusal_8(struct bench *b)
{
    static const char *const busy[] = {
        CALLING_SLOT, CONNECTED_SLOT, USER_RESET_SLOT, PEER_RESET_SLOT,
        "09 01 0080 00000001 01 01 00000005",
        "09 01 0080 00000001 03 03 00000005 00000006 00000007",
    };

    b->topic = "refusal 8";
    for (size_t i = 0; i < COUNT(busy); i++) {
        start(b);
        stand(b, 0, busy[i]);
        refuse(b, "I 00000001 02000000000180 02000000000284", 8);
        refuse(b, "I 00000001 02000000000280 02000000000284", 7);
        refuse(b, "I 00000002 02000000000180 02000000000284", 7);
    }
}

static void test_refusal_9(struct bench *b)
{
    char in[LONGEST_TEXT];

    b->topic = "refusal 9";
    start_fresh(b);
    for (unsigned i = 0; i < 8; i++) {
        snprintf(in, sizeof in, "G %08x 0200000000%02x", i * 7, i);
        serve(b, in, "");
        put_ppa(b->want, i, in + 2);
        same_table(b, in);
        refuse(b, in, 9);
    }
    refuse(b, "G 00000099 020000000099", 9);

    start_fresh(b);
    serve(b, "G 00000001 020000000001", "");
    put_ppa(b->want, 0, "00000001 020000000001");
    same_table(b, "G");
    refuse(b, "G 00000001 020000000002", 9);
    serve(b, "G 00000002 020000000001", "");
    put_ppa(b->want, 1, "00000002 020000000001");
    same_table(b, "equal MACs");
    serve_open(b, 0);
    refuse(b, "G 00000003 020000000003", 9);
    serve(b, "X 0", "");
    put_closed(b->want, 0);
    same_table(b, "X");
    refuse(b, "G 00000003 020000000003", 9);
}

static void test_refusal_10(struct bench *b)
{
    uint8_t record[100] = { 0 };

    b->topic = "refusal 10";
    start(b);
    stand(b, 0, "00");
    refuse_bytes(b, NULL, 0, NEEDED_ROOM, 10, "no bytes");
    for (unsigned kind = 0; kind < 256; kind++)
        if (kind == 0 || strchr("GOXPCIADWRSMf", (int)kind) == NULL) {
            record[0] = (uint8_t)kind;
            refuse_bytes(b, record, 100, NEEDED_ROOM, 10, "unknown kind");
        }
    refuse_bytes(b, (const uint8_t *)"X", 1, NEEDED_ROOM, 10, "cut X");
    refuse_bytes(b, (const uint8_t *)"G\0\0\0\7\2\0\0\0\0", 10, NEEDED_ROOM, 10,
                 "cut G");
    for (uint8_t length = 0; length < 96; length++) {
        message(record, 0, length, "");
        record[3 + length] = 1;
        refuse_bytes(b, record, 99, NEEDED_ROOM, 10, "padding, first byte");
        message(record, 0, length, "");
        record[98] = 0x80;
        refuse_bytes(b, record, 99, NEEDED_ROOM, 10, "padding, last byte");
        refuse_bytes(b, record, 98, NEEDED_ROOM, 10, "cut P");
    }
    message(record, 0, 4, "00000011");
    record[99] = 0xff;
    serve_bytes(b, record, 100, 0, "C 0 00000012 00000001",
                "bytes behind the record stay unread");
}

/* Order of tests: 16, 10, 1, 2, 5, 4, then the rest. */
static void test_order_of_refusals(struct bench *b)
{
    uint8_t record[LONGEST_TEXT];

    b->topic = "order of refusals";
    start(b);
    refuse_bytes(b, NULL, 0, 0, 10, "10 before 1: no bytes");
    message(record, 3, 4, "00000000 01");
    refuse_bytes(b, record, 99, 0, 10, "10 before 1: padding");
    refuse_bytes(b, record, 99, 128, 10, "10 before 2: padding");
    message(record, 200, 3, "00000001");
    refuse_bytes(b, record, 99, 128, 10, "10 before 2 and 4: padding");
    message(record, 200, 3, "");
    refuse_bytes(b, record, 99, 127, 1, "1 before 2 and 4");
    refuse_bytes(b, record, 99, 128, 2, "2 before 4");
    message(record, 200, 97, "ffffffff");
    refuse_bytes(b, record, 99, 127, 1, "1 before 2 and 5");
    refuse_bytes(b, record, 99, 128, 2, "2 before 5");
    refuse(b, "A 0 02000000000984", 2);
    refuse(b, "W 0 00000005 00000000", 2);

    stand(b, 0, "00");
    message(record, 0, 97, "ffffffff");
    refuse_bytes(b, record, 99, 127, 1, "1 before 5");
    message(record, 0, 0, "");
    refuse_bytes(b, record, 99, 127, 1, "1 before 4");
    refuse_bytes(b, record, parse_records("A 0 02000000000984", record), 127, 1,
                 "1 before 6");
    refuse_bytes(b, record,
                 parse_records("I 00000009 00000000000000 00000000000000",
                               record),
                 127, 1, "1 before 7");
    refuse_bytes(b, record, parse_records("G 00000001 020000000001", record),
                 127, 1, "1 before 9");
}

void run_refusals(struct bench *b)
{
    test_refusal_1(b);
    test_refusal_2(b);
    test_refusal_3(b);
    test_refusals_4_and_5(b);
    test_refusal_6(b);
    test_refusal_7(b);
    test_refusal_8(b);
    test_refusal_9(b);
    test_refusal_10(b);
    test_order_of_refusals(b);
}
