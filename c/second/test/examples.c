/*
 * examples.c - tests the fresh table, the sizes of records, the measured
 * examples of the paper and the slips that it names.
 */
#include <stdint.h>
#include <stdio.h>
#include <string.h>

#include "bench.h"
#include "groups.h"
#include "../second.h"

static void test_fresh(struct bench *b)
{
    uint8_t *image = table_of(b);

    b->topic = "the fresh table";
    start_fresh(b);
    check(b, all_are(image, 2, 0xff), "all streams are free");
    check(b, all_are(image + 2, 5, 0) && image[7] == 1, "the counter is 1");
    check(b, all_are(image + 8, SECOND_TABLE_SIZE - 8, 0), "the rest is zero");
    check(b, all_are(b->table_area, GUARD, TABLE_GUARD_BYTE), "guard before");
    check(b, all_are(image + SECOND_TABLE_SIZE, GUARD, TABLE_GUARD_BYTE),
          "guard behind");

    memset(b->table_area, TABLE_GUARD_BYTE, sizeof b->table_area);
    check(b, second_fresh(image, 759) == 16, "759 bytes");
    check(b, second_fresh(image, 761) == 16, "761 bytes");
    check(b, second_fresh(image, 0) == 16, "0 bytes");
    check(b, second_fresh(NULL, 0) == 16, "no table");
    check(b, all_are(b->table_area, sizeof b->table_area, TABLE_GUARD_BYTE),
          "nothing written");
}

static void test_record_sizes(struct bench *b)
{
    static const struct {
        char kind;
        uint32_t size;
    } kinds[] = {
        { 'G', 11 }, { 'O', 1 }, { 'X', 2 }, { 'P', 99 }, { 'C', 99 },
        { 'I', 19 }, { 'A', 9 }, { 'D', 6 }, { 'W', 10 }, { 'R', 6 },
        { 'S', 2 }, { 'M', 67 }, { 'f', 87 },
    };
    uint8_t record[100];
    size_t known = 0;

    b->topic = "record sizes";
    memset(record, 0xff, sizeof record);
    for (size_t i = 0; i < COUNT(kinds); i++) {
        uint32_t size = kinds[i].size;

        record[0] = (uint8_t)kinds[i].kind;
        check(b, second_record_size(record, size) == size, "whole record");
        check(b, second_record_size(record, 100) == size, "and bytes behind");
        check(b, second_record_size(record, size - 1) == 0, "cut body");
    }
    check(b, second_record_size(NULL, 0) == 0, "no bytes");
    for (unsigned kind = 0; kind < 256; kind++) {
        record[0] = (uint8_t)kind;
        if (second_record_size(record, 100) != 0)
            known++;
    }
    check(b, known == 13, "no other kind is known");
}

static void test_measured_info(struct bench *b)
{
    b->topic = "measured examples, INFO_REQ";
    start_fresh(b);
    serve_open(b, 0);
    serve(b, "P 0 00000000", "C 0 " INFO_UNBOUND("00000004"));
    same_table(b, "unattached");
    check(b, room_of(b)[2] == 82, "unattached: L 82");

    start(b);
    stand(b, 0, UNBOUND_SLOT);
    serve(b, "P 0 00000001 00000080 00000002 0001 0000 00000000",
          "C 0 00000004 00000080 00000007 00000018 00000002 00000000"
          " 02000000000180");
    put_open(b->want, 0, IDLE_SLOT);
    same_table(b, "bound to 0x80");
    serve(b, "P 0 00000000", "C 0 " INFO_BOUND("00000003"));
    check(b, room_of(b)[2] == 89, "bound to 0x80: L 89");

    start(b);
    stand(b, 0, UNBOUND_SLOT);
    serve(b, "P 0 00000001 00000800 00000002 0002 0000 00000000",
          "C 0 00000004 00000800 00000008 00000018 00000000 00000000"
          " 0200000000010800");
    put_open(b->want, 0, TYPE_SLOT);
    same_table(b, "bound to type 0x0800");
    serve(b, "P 0 00000000", "C 0 " INFO_TYPE);
    check(b, room_of(b)[2] == 90, "bound to type 0x0800: L 90");
}

static void test_measured_limits(struct bench *b)
{
    uint8_t record[99];

    b->topic = "measured examples, limits";
    start(b);
    stand(b, 0, UNBOUND_SLOT);
    error(b, "P 0 00000001 00000081 00000000 0001 0000 00000000", BADADDR);
    error(b, "P 0 00000001 000005ff 00000000 0002 0000 00000000", BADADDR);
    stand(b, 1, "00");
    error(b, "P 1 0000000b 000000", BADPRIM);
    message(record, 1, 3, "000000");
    refuse_bytes(b, record, 99, NEEDED_ROOM, 4, "L 3");
    message(record, 1, 97, "00000000");
    refuse_bytes(b, record, 99, NEEDED_ROOM, 5, "L 97");
    message(record, 1, 4, "00000000");
    refuse_bytes(b, record, 99, 127, 1, "room 127");
}

static void test_measured_connect(struct bench *b)
{
    b->topic = "measured examples, CONNECT_REQ";
    start(b);
    stand(b, 0, IDLE_SLOT);
    error(b, "P 0 0000000d 00000007 00000019 00000000 00000000 00000000"
             " 02000000000984", BADADDR);
    error(b, "P 0 0000000d 00000007 ffffffff 00000000 00000000 00000000"
             " 02000000000984", BADADDR);
    serve(b, "P 0 0000000d 00000007 00000018 00000000 00000000 00000000"
             " 02000000000984", "c 0 02000000000984");
    put_open(b->want, 0, CALLING_SLOT);
    same_table(b, "offset 24");
}

static void test_measured_counts(struct bench *b)
{
    b->topic = "measured examples, open indications";
    start(b);
    stand(b, 0, UNBOUND_SLOT);
    serve(b, "P 0 00000001 00000080 00000009 0001 0000 00000000",
          "C 0 00000004 00000080 00000007 00000018 00000008 00000000"
          " 02000000000180");
    put_open(b->want, 0, "06 01 0080 00000001 08");
    same_table(b, "max_conind 9 grants 8");

    for (unsigned number = 0x11; number <= 0x18; number++) {
        char out[LONGEST_TEXT];

        snprintf(out, sizeof out,
                 "P 0 0000000e %08x 00000007 00000024 00000007 0000002b"
                 " 00000000 00000000 00000000 02000000000180 02000000000284",
                 number);
        serve(b, "I 00000001 02000000000180 02000000000284", out);
    }
    put_open(b->want, 0, "09 01 0080 00000001 08 08 00000011 00000012 00000013"
                         " 00000014 00000015 00000016 00000017 00000018");
    put_number(b->want + COUNTER, 0x19);
    same_table(b, "8 open");
    refuse(b, "I 00000001 02000000000180 02000000000284", 8);

    stand(b, 0, "09 01 0080 00000001 02 02 00000001 00000002");
    error(b, "P 0 0000000f 00000001 00000000 00000000 00000000 00000000",
          PENDING);
    error(b, "P 0 0000000f 00000002 00000001 00000000 00000000 00000000",
          PENDING);
}

/* The slips that the paper names. */
static void test_slips(struct bench *b)
{
    b->topic = "slips";
    start(b);
    stand(b, 0, IDLE_SLOT);
    error(b, "P 0 00000001 00000081 00000000 0001 0000 00000000", OUTSTATE);

    start(b);
    stand(b, 0, "09 01 0080 00000001 02 02 00000003 00000004");
    stand(b, 1, "06 01 0082 00000001");
    serve(b, "P 0 0000000f 00000003 00000002 00000000 00000000 00000000",
          "a 1 00000003; C 0 00000006 0000000f");
    put_open(b->want, 0, "09 01 0080 00000001 02 01 00000004");
    put_open(b->want, 1, "0b 01 0082 00000001");
    same_table(b, "the first accept of two leaves state 9");

    serve(b, "X 0", "d 0 00000004 00000000");
    put_closed(b->want, 0);
    same_table(b, "close");
    serve_open(b, 0);
    serve(b, "P 0 0000000b 00000001", "C 0 00000006 0000000b");
    put_open(b->want, 0, UNBOUND_SLOT);
    same_table(b, "no calls open for the next opening");
}

void run_examples(struct bench *b)
{
    test_fresh(b);
    test_record_sizes(b);
    test_measured_info(b);
    test_measured_limits(b);
    test_measured_connect(b);
    test_measured_counts(b);
    test_slips(b);
}
