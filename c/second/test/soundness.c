/* soundness.c - tests refusal 16: which tables are sound, and which are not. */
#include <stdint.h>
#include <stdio.h>
#include <string.h>

#include "bench.h"
#include "groups.h"
#include "../second.h"

/* Whatever the record and the room: 16 is tested first. */
static void not_lent_soundly(struct bench *b, const char *what)
{
    refuse_bytes(b, (const uint8_t *)"O", 1, NEEDED_ROOM, 16, what);
    refuse_bytes(b, NULL, 0, NEEDED_ROOM, 16, what);
    refuse_bytes(b, (const uint8_t *)"O", 1, 0, 16, what);
}

static void lent_soundly(struct bench *b, const char *what)
{
    refuse_bytes(b, NULL, 0, NEEDED_ROOM, 10, what);
}

static void test_length_of_image(struct bench *b)
{
    uint8_t image[SECOND_TABLE_SIZE + 1] = { 0xff, 0xff };
    uint8_t before[sizeof image];
    uint8_t room[NEEDED_ROOM];
    const uint8_t *record = (const uint8_t *)"O";

    b->topic = "refusal 16, length";
    memcpy(before, image, sizeof image);
    check(b, second_call(image, 759, record, 1, room, 128) == 16u << 16, "759");
    check(b, second_call(image, 761, record, 1, room, 128) == 16u << 16, "761");
    check(b, second_call(image, 0, record, 1, room, 128) == 16u << 16, "0");
    check(b, second_call(NULL, 0, record, 1, room, 128) == 16u << 16, "none");
    check(b, second_call(NULL, 0, NULL, 0, NULL, 0) == 16u << 16, "nothing");
    check(b, memcmp(image, before, sizeof image) == 0, "image as it was");
}

/* A sound table with much in it, for damages. */
static void start_full(struct bench *b)
{
    start(b);
    stand(b, 0, "09 01 0080 00000001 03 02 00000007 00000008");
    stand(b, 1, UNBOUND_SLOT);
    stand(b, 2, "00");
    stand(b, 3, TYPE_SLOT);
    stand(b, 4, "0b 01 0082 00000002 00");
    stand(b, 5, "09 01 0080 00000002 01 01 00000009");
    stand(b, 6, "06 01 0084 00000001 00");
}

#define IN_SLOT(s, offset) (SLOTS + SLOT * (s) + (offset))

static void test_damaged_bytes(struct bench *b)
{
    static const struct {
        const char *what;
        size_t offset;
        const char *bytes;
    } damages[] = {
        { "opening byte 2", OPENED, "02" },
        { "opening byte 255", OPENED, "ff" },
        { "opening not remembered", OPENED, "00" },
        { "9 PPAs", PPA_COUNT, "09" },
        { "255 PPAs", PPA_COUNT, "ff" },
        { "PPA place behind the count", PPA_COUNT, "01" },
        { "unused place for a PPA, number", PPA_PLACES + 20, "01" },
        { "unused place for a PPA, MAC", PPA_PLACES + 79, "01" },
        { "attached PPA missing", PPA_PLACES, "00000003" },
        { "mask closes a stream that holds calls", MASK, "ff81" },
        { "mask closes a stream that is attached", MASK, "ff82" },
        { "state 0 with a PPA of the table", IN_SLOT(2, 4), "00000001" },
        { "state 0 with another PPA", IN_SLOT(2, 4), "00000003" },
        { "state 0 with a mode", IN_SLOT(2, 1), "01" },
        { "state 0 with a SAP", IN_SLOT(2, 2), "0080" },
        { "state 0 with a count granted", IN_SLOT(2, 8), "01" },
        { "state 0 with an indication", IN_SLOT(2, 9), "0100000063" },
        { "state 3 with PPA 0", IN_SLOT(1, 4), "00000000" },
        { "state 3 with an unknown PPA", IN_SLOT(1, 4), "00000003" },
        { "state 3 with a mode", IN_SLOT(1, 1), "01" },
        { "state 3 with a SAP", IN_SLOT(1, 2), "0080" },
        { "state 3 with a count granted", IN_SLOT(1, 8), "01" },
        { "state 3 with an indication", IN_SLOT(1, 9), "0100000063" },
        { "state 6 with an unknown PPA", IN_SLOT(6, 4), "00000003" },
        { "state 6 with PPA 0", IN_SLOT(6, 4), "00000000" },
        { "state 6 in mode 0", IN_SLOT(6, 1), "00" },
        { "state 6 in mode 3", IN_SLOT(6, 1), "03" },
        { "state 6 with an odd SAP", IN_SLOT(6, 2), "0081" },
        { "state 6 with the reserved SAP", IN_SLOT(6, 2), "0006" },
        { "state 6 with SAP 0x100", IN_SLOT(6, 2), "0100" },
        { "mode 1 with a type", IN_SLOT(6, 2), "0800" },
        { "mode 2 with 0x5ff", IN_SLOT(3, 2), "05ff" },
        { "mode 2 with an odd SAP", IN_SLOT(3, 2), "0081" },
        { "mode 2 with the reserved SAP", IN_SLOT(3, 2), "0006" },
        { "mode 2 with a count granted", IN_SLOT(3, 8), "01" },
        { "state 6 with an indication", IN_SLOT(6, 8), "020100000063" },
        { "state 11 with an indication", IN_SLOT(4, 8), "020100000063" },
        { "state 11 in mode 2", IN_SLOT(4, 1), "02" },
        { "state 11 with an unknown PPA", IN_SLOT(4, 4), "00000003" },
        { "state 9 without an indication", IN_SLOT(5, 9), "0000000000" },
        { "state 9 with more than granted", IN_SLOT(0, 8), "01" },
        { "state 9 with none granted", IN_SLOT(5, 8), "00" },
        { "9 granted in state 9", IN_SLOT(0, 8), "09" },
        { "9 granted in state 11", IN_SLOT(4, 8), "09" },
        { "255 granted in state 6", IN_SLOT(6, 8), "ff" },
        { "9 indications", IN_SLOT(0, 9), "09" },
        { "number behind the count", IN_SLOT(0, 9), "01" },
        { "unused place for a number", IN_SLOT(0, 18), "00000001" },
        { "last unused place for a number", IN_SLOT(0, 41), "01" },
        { "unused place of a closed stream", IN_SLOT(15, 41), "01" },
        { "open number 0", IN_SLOT(0, 10), "00000000" },
        { "last open number 0", IN_SLOT(0, 14), "00000000" },
        { "open number 0 of a later stream", IN_SLOT(5, 10), "00000000" },
        { "number twice on a stream", IN_SLOT(0, 14), "00000007" },
        { "number twice on two streams", IN_SLOT(5, 10), "00000008" },
        { "two listen for one PPA and SAP", IN_SLOT(6, 2), "00800000000101" },
        { "closed stream with a state", IN_SLOT(15, 0), "03" },
        { "closed stream with a mode", IN_SLOT(15, 1), "01" },
        { "closed stream with a SAP", IN_SLOT(15, 2), "0080" },
        { "closed stream with a PPA", IN_SLOT(15, 4), "00000001" },
        { "closed stream with a count granted", IN_SLOT(15, 8), "01" },
        { "closed stream with an indication", IN_SLOT(15, 9), "0100000063" },
    };

    b->topic = "refusal 16, damaged bytes";
    start_full(b);
    lent_soundly(b, "the table before the damage");
    for (size_t i = 0; i < COUNT(damages); i++) {
        start_full(b);
        hex(damages[i].bytes, table_of(b) + damages[i].offset);
        not_lent_soundly(b, damages[i].what);
    }
}

static void test_damaged_heads(struct bench *b)
{
    b->topic = "refusal 16, PPAs and openings";
    for (unsigned place = 0; place < 8; place++) {
        start(b);
        for (unsigned i = 2; i < 8; i++)
            put_ppa(table_of(b), i, "00000000 020000000009");
        for (unsigned i = 0; i < 8; i++)
            put_number(table_of(b) + PPA_PLACES + PPA_PLACE * i, i + 1);
        lent_soundly(b, "eight PPAs");
        for (unsigned i = 0; i < 8; i++) {
            put_number(table_of(b) + PPA_PLACES + PPA_PLACE * place, i + 1);
            if (i != place)
                not_lent_soundly(b, "two PPA numbers equal");
        }
    }
    start(b);
    table_of(b)[OPENED] = 2;
    not_lent_soundly(b, "opening byte 2 and no stream open");
    for (unsigned s = 0; s < 16; s++) {
        start(b);
        stand(b, s, "00");
        lent_soundly(b, "a stream open");
        table_of(b)[OPENED] = 0;
        not_lent_soundly(b, "its opening not remembered");
    }
}

static void test_states_of_slots(struct bench *b)
{
    /* Those in which a stream may be bound and have no indication open. */
    static const uint8_t sound_states[] = { 6, 8, 11, 12, 13 };

    b->topic = "refusal 16, states";
    for (unsigned state = 0; state < 256; state++) {
        start(b);
        stand(b, 7, "00 01 0082 00000001 02");
        table_of(b)[IN_SLOT(7, 0)] = (uint8_t)state;
        if (memchr(sound_states, (int)state, sizeof sound_states) != NULL)
            lent_soundly(b, "a state with a row");
        else
            not_lent_soundly(b, "a state without a row, or not of this slot");
    }
}

/* Above 6 only mode 1, and open indications only in 9. */
static void test_slots_above_6(struct bench *b)
{
    static const char *const states[] = { "08", "0b", "0c", "0d" };
    char slot[LONGEST_TEXT];

    b->topic = "refusal 16, slots above 6";
    for (size_t i = 0; i < 4; i++) {
        start(b);
        snprintf(slot, sizeof slot, "%s 02 0082 00000001", states[i]);
        stand(b, 7, slot);
        not_lent_soundly(b, slot);
        snprintf(slot, sizeof slot, "%s 01 0082 00000001 01 01 00000003",
                 states[i]);
        stand(b, 7, slot);
        not_lent_soundly(b, slot);
        snprintf(slot, sizeof slot, "%s 01 0082 00000003 01", states[i]);
        stand(b, 7, slot);
        not_lent_soundly(b, slot);
        snprintf(slot, sizeof slot, "%s 00 0000 00000001", states[i]);
        stand(b, 7, slot);
        not_lent_soundly(b, slot);
        snprintf(slot, sizeof slot, "%s 01 0082 00000001 08", states[i]);
        stand(b, 7, slot);
        lent_soundly(b, slot);
    }
}

static void test_sound_tables(struct bench *b)
{
    static const char *const sound_slots[] = {
        "06 01 0000 00000001", "06 01 00fe 00000001 08", "06 02 00aa 00000001",
        "06 02 0600 00000001", "06 02 ffff 00000001", "06 02 0000 00000002",
        "06 01 0080 00000001 00", "0b 01 0080 00000002 00",
        "06 02 0080 00000001 00", "06 01 0084 00000002 08",
        ("09 01 00aa 00000001 08 08 00000001 00000002 00000003 00000004"
         " 00000005 00000006 00000064 ffffffff"),
    };

    b->topic = "sound tables";
    for (size_t i = 0; i < COUNT(sound_slots); i++) {
        start_full(b);
        stand(b, 15, sound_slots[i]);
        lent_soundly(b, sound_slots[i]);
    }
    start_full(b);
    put_number(table_of(b) + COUNTER, 0);
    lent_soundly(b, "counter 0");
    put_number(table_of(b) + COUNTER, 7);
    lent_soundly(b, "counter at an open number");
    hex("020000000001", table_of(b) + PPA_PLACES + 14);
    lent_soundly(b, "equal MACs");
    start(b);
    lent_soundly(b, "an opening remembered and all closed");
    put_ppa(table_of(b), 2, "00000000 000000000000");
    stand(b, 9, "03 00 0000 00000000");
    lent_soundly(b, "attached to a PPA of number 0");
    start(b);
    table_of(b)[OPENED] = 0;
    lent_soundly(b, "PPAs and no opening");
}

void run_soundness(struct bench *b)
{
    test_length_of_image(b);
    test_damaged_bytes(b);
    test_damaged_heads(b);
    test_states_of_slots(b);
    test_slots_above_6(b);
    test_sound_tables(b);
}
