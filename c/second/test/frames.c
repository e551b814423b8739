/*
 * frames.c - tests the frames from the line: which streams get an indication,
 * and the refusals.
 */
#include <stdint.h>
#include <stdio.h>
#include <string.h>

#include "bench.h"
#include "datagrams.h"
#include "groups.h"
#include "../second.h"

enum {
    FRAME = 87,
    ADDRESS_LENGTH = 5,
    CALLED = 6,
    CALLING = 14,
    DATA_LENGTH = 22,
    DATA_BYTES = 23
};

/* The indications of SAP_FRAME and TYPE_FRAME. */
#define SAP_IND(s)                                                         \
    "P " s " 00000008 00000007 00000018 00000007 0000001f 00000000"        \
    " 02000000000180 02000000000284; M " s " 7570;"
#define TYPE_IND(s)                                                        \
    "P " s " 00000008 00000008 00000018 00000008 00000020 00000000"        \
    " 0200000000010800 0200000000028137; M " s " 7570;"

/* Served, and the table stays. */
static void arrives(struct bench *b, const char *in, const char *out)
{
    serve(b, in, out);
    same_table(b, in);
}

static void arrives_bytes(struct bench *b, const uint8_t *frame,
                          const char *out, const char *what)
{
    serve_bytes(b, frame, FRAME, 0, out, what);
    same_table(b, what);
}

static void test_forms(struct bench *b)
{
    b->topic = "frames of both forms";
    start(b);
    stand(b, 0, BOARD_SLOT);
    stand(b, 1, TYPE_SLOT);
    arrives(b, SAP_FRAME, SAP_IND("0"));
    check(b, room_of(b)[2] == 38, "form 7: L 38");
    arrives(b, TYPE_FRAME, TYPE_IND("1"));
    check(b, room_of(b)[2] == 40, "form 8: L 40");
    check(b, memcmp(room_of(b) + 99, "M\1\2up\0", 6) == 0,
          "the M right behind it");
}

/* A stream bound to SAP 0x80 gets nothing of a frame to type 0x0080. */
static void test_unlike_forms(struct bench *b)
{
    b->topic = "frames of another form";
    start(b);
    stand(b, 0, BOARD_SLOT);
    stand(b, 1, "06 02 0000 00000001");
    stand(b, 2, "06 02 0008 00000001");
    stand(b, 3, TYPE_SLOT);
    stand(b, 4, "06 02 8000 00000001");
    arrives(b, "f 00000001 08 0200000000010080 0200000000028137 02 7570", "");
    arrives(b, "f 00000001 08 0200000000010000 0200000000028137 02 7570", "");
    arrives(b, "f 00000001 08 0200000000010008 0200000000028137 02 7570", "");
    arrives(b, SAP_FRAME, SAP_IND("0"));
    arrives(b, TYPE_FRAME, TYPE_IND("3"));
    arrives(b, "f 00000001 07 0200000000010000 0200000000028400 02 7570",
            "P 1 00000008 00000007 00000018 00000007 0000001f 00000000"
            " 02000000000100 02000000000284; M 1 7570");
    arrives(b, "f 00000001 07 0200000000010800 0200000000028400 02 7570",
            "P 2 00000008 00000007 00000018 00000007 0000001f 00000000"
            " 02000000000108 02000000000284; M 2 7570");
    arrives(b, "f 00000001 08 0200000000018000 0200000000028137 02 7570",
            "P 4 00000008 00000008 00000018 00000008 00000020 00000000"
            " 0200000000018000 0200000000028137; M 4 7570");
}

/* Nobody bound, or a called MAC that isn't the PPA's: no record. */
static void test_no_record(struct bench *b)
{
    b->topic = "frames that nobody gets";
    start_fresh(b);
    serve(b, "G 00000001 020000000001", "");
    arrives(b, SAP_FRAME, "");
    start(b);
    arrives(b, SAP_FRAME, "");
    arrives(b, TYPE_FRAME, "");
    stand(b, 0, BOARD_SLOT);
    stand(b, 1, TYPE_SLOT);
    arrives(b, "f 00000001 07 0200000000028000 0200000000028400 02 7570", "");
    arrives(b, "f 00000001 07 0300000000018000 0200000000028400 02 7570", "");
    arrives(b, "f 00000001 07 ffffffffffff8000 0200000000028400 02 7570", "");
    arrives(b, "f 00000001 08 ffffffffffff0800 0200000000028137 02 7570", "");
    arrives(b, "f 00000001 07 0200000000018200 0200000000028400 02 7570", "");
    arrives(b, "f 00000001 07 0200000000018100 0200000000028400 02 7570", "");
    arrives(b, "f 00000001 07 0200000000010600 0200000000028400 02 7570", "");
    arrives(b, "f 00000001 08 0200000000010801 0200000000028137 02 7570", "");
    arrives(b, "f 00000001 08 0200000000010900 0200000000028137 02 7570", "");
    arrives(b, "f 00000002 07 0200000000018000 0200000000028400 02 7570", "");
    arrives(b, "f 00000002 07 0200000000028000 0200000000028400 02 7570", "");

    hex("ffffffffffff", table_of(b) + PPA_PLACES + 4);
    arrives(b, "f 00000001 07 ffffffffffff8000 0200000000028400 02 7570",
            "P 0 00000008 00000007 00000018 00000007 0000001f 00000000"
            " ffffffffffff80 02000000000284; M 0 7570");
    arrives(b, SAP_FRAME, "");
}

/* Each mode 2 stream in 6 of that PPA bound to that SAP, in stream order. */
static void test_which_streams(struct bench *b)
{
    b->topic = "the streams that get a frame";
    start(b);
    stand(b, 0, "00");
    stand(b, 1, UNBOUND_SLOT);
    stand(b, 2, "06 01 0080 00000001 00");
    stand(b, 3, TYPE_SLOT);
    stand(b, 4, "08 01 0080 00000001 00");
    stand(b, 5, CALLED_SLOT);
    stand(b, 6, "0b 01 0080 00000001 00");
    stand(b, 7, "0c 01 0080 00000001 00");
    stand(b, 8, "0d 01 0080 00000001 00");
    arrives(b, SAP_FRAME, "");
    arrives(b, TYPE_FRAME, TYPE_IND("3"));

    stand(b, 1, BOARD_SLOT);
    stand(b, 9, BOARD_SLOT);
    stand(b, 10, "06 02 0080 00000002");
    stand(b, 11, "06 02 0082 00000001");
    stand(b, 12, TYPE_SLOT);
    stand(b, 15, BOARD_SLOT);
    arrives(b, SAP_FRAME, SAP_IND("1") SAP_IND("9") SAP_IND("15"));
    arrives(b, TYPE_FRAME, TYPE_IND("3") TYPE_IND("12"));
    arrives(b, "f 00000002 07 0200000000028000 0200000000028400 02 7570",
            "P 10 00000008 00000007 00000018 00000007 0000001f 00000000"
            " 02000000000280 02000000000284; M 10 7570");

    serve(b, "P 9 00000002", "F 9; C 9 00000006 00000002");
    arrives(b, SAP_FRAME, SAP_IND("1") SAP_IND("15"));
    serve(b, "X 1", "");
    arrives(b, SAP_FRAME, SAP_IND("15"));
    serve(b, "X 15", "");
    arrives(b, SAP_FRAME, "");
}

/* Two PPAs with one MAC: the PPA's number decides. */
static void test_equal_macs(struct bench *b)
{
    b->topic = "frames on PPAs with one MAC";
    start(b);
    hex("020000000001", table_of(b) + PPA_PLACES + PPA_PLACE + 4);
    stand(b, 4, "06 02 0080 00000002");
    stand(b, 5, BOARD_SLOT);
    arrives(b, SAP_FRAME, SAP_IND("5"));
    arrives(b, "f 00000002 07 0200000000018000 0200000000028400 02 7570",
            SAP_IND("4"));
}

#define EACH_STREAM(indication)                                            \
    indication("0") indication("1") indication("2") indication("3")        \
    indication("4") indication("5") indication("6") indication("7")        \
    indication("8") indication("9") indication("10") indication("11")      \
    indication("12") indication("13") indication("14") indication("15")

static void test_all_streams(struct bench *b)
{
    uint8_t frame[FRAME];

    b->topic = "frames to all streams";
    start(b);
    for (unsigned s = 0; s < 16; s++)
        stand(b, s, BOARD_SLOT);
    parse_records(SAP_FRAME, frame);
    arrives(b, SAP_FRAME, EACH_STREAM(SAP_IND));
    check(b,
          second_call(table_of(b), SECOND_TABLE_SIZE, frame, FRAME, room_of(b),
                      FRAME_ROOM) == 2656,
          "2,656 bytes");
    for (unsigned s = 0; s < 16; s++)
        stand(b, s, TYPE_SLOT);
    arrives(b, TYPE_FRAME, EACH_STREAM(TYPE_IND));
}

/* The frame needs 4,096 bytes of room, however little it writes. */
static void test_rooms(struct bench *b)
{
    static const size_t rooms[] = {
        0, 1, 127, 128, 129, 165, 166, 2655, 2656, 4095,
    };
    uint8_t frame[FRAME];
    uint8_t record[1] = { 'O' };

    b->topic = "rooms of frames";
    start(b);
    stand(b, 0, BOARD_SLOT);
    for (size_t i = 0; i < COUNT(rooms); i++) {
        parse_records(SAP_FRAME, frame);
        refuse_bytes(b, frame, FRAME, rooms[i], 1, "room under 4,096");
        frame[CALLED] = 3;
        refuse_bytes(b, frame, FRAME, rooms[i], 1, "also if nothing is due");
    }
    arrives(b, SAP_FRAME, SAP_IND("0"));
    refuse_bytes(b, record, 1, 127, 1, "an O with room 127");
    serve_open(b, 1);
}

static void test_address_lengths(struct bench *b)
{
    uint8_t frame[FRAME];

    b->topic = "address lengths of frames";
    start(b);
    stand(b, 0, BOARD_SLOT);
    parse_records(SAP_FRAME, frame);
    for (unsigned length = 0; length < 256; length++) {
        frame[ADDRESS_LENGTH] = (uint8_t)length;
        check(b, second_record_size(frame, FRAME) == FRAME, "reading goes on");
        if (length == 7 || length == 8)
            continue;
        refuse_bytes(b, frame, FRAME, FRAME_ROOM, 10, "not 7 or 8");
        refuse_bytes(b, frame, FRAME, 0, 10, "10 before 1");
    }
    parse_records("f 00000001 00 0000000000000000 0000000000000000 00", frame);
    for (uint8_t length = 0; length < 7; length++) {
        frame[ADDRESS_LENGTH] = length;
        refuse_bytes(b, frame, FRAME, FRAME_ROOM, 10, "under 7, padding zero");
    }
}

static void test_padding(struct bench *b)
{
    uint8_t frame[FRAME];

    b->topic = "padding of frames";
    start(b);
    stand(b, 0, BOARD_SLOT);
    parse_records(SAP_FRAME, frame);
    frame[CALLED + 7] = 1;
    refuse_bytes(b, frame, FRAME, FRAME_ROOM, 10, "called, form 7");
    check(b, second_record_size(frame, FRAME) == FRAME, "reading goes on");
    parse_records(SAP_FRAME, frame);
    frame[CALLING + 7] = 0x80;
    refuse_bytes(b, frame, FRAME, FRAME_ROOM, 10, "calling, form 7");
    refuse_bytes(b, frame, FRAME, 4095, 10, "10 before 1");
    for (unsigned length = 0; length < 64; length++) {
        parse_records(SAP_FRAME, frame);
        memset(frame + DATA_BYTES, 0, 64);
        frame[DATA_LENGTH] = (uint8_t)length;
        frame[DATA_BYTES + length] = 1;
        refuse_bytes(b, frame, FRAME, FRAME_ROOM, 10, "data, first byte");
        frame[DATA_BYTES + length] = 0;
        frame[FRAME - 1] = 0x80;
        refuse_bytes(b, frame, FRAME, 4095, 10, "data, last byte");
        check(b, second_record_size(frame, FRAME) == FRAME, "reading goes on");
    }
}

/* Neither the calling address nor the data is looked into. */
static void test_data(struct bench *b)
{
    uint8_t frame[FRAME];
    char out[LONGEST_TEXT];
    char *end;

    b->topic = "data of frames";
    start(b);
    stand(b, 0, BOARD_SLOT);
    arrives(b, "f 00000001 07 0200000000018000 0000000000000100 00",
            "P 0 00000008 00000007 00000018 00000007 0000001f 00000000"
            " 02000000000180 00000000000001; M 0");
    parse_records("f 00000001 07 0200000000018000 ffffffffffffff00 40", frame);
    end = out + sprintf(out, "P 0 00000008 00000007 00000018 00000007 0000001f"
                             " 00000000 02000000000180 ffffffffffffff; M 0 ");
    for (unsigned i = 0; i < 64; i++) {
        frame[DATA_BYTES + i] = (uint8_t)(255 - i);
        end += sprintf(end, "%02x", 255 - i);
    }
    arrives_bytes(b, frame, out, "64 bytes");
}

/* Order of tests: 16, 10, 1, 5, 7. */
static void test_refusals(struct bench *b)
{
    uint8_t frame[FRAME];

    b->topic = "refusals of frames";
    start(b);
    stand(b, 0, BOARD_SLOT);
    refuse(b, "f 00000003 07 0200000000018000 0200000000028400 02 7570", 7);
    refuse(b, "f 00000000 07 0200000000018000 0200000000028400 02 7570", 7);
    refuse(b, "f 01000001 08 0200000000010800 0200000000028137 02 7570", 7);
    refuse(b, "f 00000003 07 ffffffffffff8000 0200000000028400 00", 7);
    for (unsigned length = 65; length < 256; length++) {
        parse_records(SAP_FRAME, frame);
        frame[DATA_LENGTH] = (uint8_t)length;
        memset(frame + DATA_BYTES, 0xff, 64);
        refuse_bytes(b, frame, FRAME, FRAME_ROOM, 5, "data over 64");
        refuse_bytes(b, frame, FRAME, 4095, 1, "1 before 5");
        frame[1] = 1;
        refuse_bytes(b, frame, FRAME, FRAME_ROOM, 5, "5 before 7");
        frame[ADDRESS_LENGTH] = 9;
        refuse_bytes(b, frame, FRAME, FRAME_ROOM, 10, "10 before 5 and 7");
        table_of(b)[OPENED] = 0;
        refuse_bytes(b, frame, FRAME, FRAME_ROOM, 16, "16 before 10");
        table_of(b)[OPENED] = 1;
    }
    parse_records(SAP_FRAME, frame);
    frame[1] = 1;
    refuse_bytes(b, frame, FRAME, 4095, 1, "1 before 7");
    frame[CALLED + 7] = 1;
    refuse_bytes(b, frame, FRAME, FRAME_ROOM, 10, "10 before 7: padding");
}

static void test_cut_frames(struct bench *b)
{
    uint8_t frame[FRAME + 1];
    uint8_t area[FRAME];

    b->topic = "a frame cut at each byte";
    start(b);
    stand(b, 0, BOARD_SLOT);
    parse_records(SAP_FRAME, frame);
    for (size_t size = 0; size < FRAME; size++) {
        uint8_t *cut = area + FRAME - size;

        memcpy(cut, frame, size);
        refuse_bytes(b, cut, size, FRAME_ROOM, 10, "cut");
        check(b, second_record_size(cut, size) == 0, "reading ends");
    }
    frame[FRAME] = 'M';
    serve_bytes(b, frame, FRAME + 1, 0, SAP_IND("0"), "bytes behind it");
    check(b, second_record_size(frame, FRAME + 1) == FRAME, "bytes behind it");
}

void run_frames(struct bench *b)
{
    test_forms(b);
    test_unlike_forms(b);
    test_no_record(b);
    test_which_streams(b);
    test_equal_macs(b);
    test_all_streams(b);
    test_rooms(b);
    test_address_lengths(b);
    test_padding(b);
    test_data(b);
    test_refusals(b);
    test_cut_frames(b);
}
