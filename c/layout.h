/*
 * layout.h - where the table's image (docs/IMAGE.md) and a record hold what.
 *
 * All C programs take these numbers from here but the second, which has its own, as it is a reading of its own.
 */
#ifndef LAYOUT_H
#define LAYOUT_H

#include <assert.h>

#include "kungthevi.h"

enum {
    STREAMS = 16,
    PPAS = 8,
    INDICATIONS = 8, /* open ones that a stream holds at most */
    MAC_SIZE = 6,
    ADDRESS_SIZE = MAC_SIZE + 1,      /* a MAC, then one byte of SAP */
    TYPE_ADDRESS_SIZE = MAC_SIZE + 2, /* a MAC, then two bytes of Ethernet type: the longest address */
    NUMBER_SIZE = 4 /* of a PPA's number and of a correlation number */
};

/* Offsets in the image. */
enum {
    AT_FREE_MASK = 0,
    AT_OPENING = 2,
    AT_PPA_COUNT = 3,
    AT_COUNTER = 4,
    AT_PPA_PLACES = 8,
    AT_SLOTS = 88
};

/* Offsets in a place for a PPA. */
enum {
    AT_PLACE_NUMBER = 0,
    AT_PLACE_MAC = 4,
    PPA_PLACE_SIZE = 10
};

/* Offsets in a slot. */
enum {
    AT_STATE = 0,
    AT_MODE = 1,
    AT_SAP = 2,
    AT_SLOT_PPA = 4,
    AT_GRANTED = 8,
    AT_INDICATIONS = 9,
    AT_NUMBERS = 10,
    SLOT_SIZE = 42
};

static_assert(AT_COUNTER + NUMBER_SIZE == AT_PPA_PLACES, "the places for PPAs stand behind the counter");
static_assert(AT_PLACE_MAC + MAC_SIZE == PPA_PLACE_SIZE, "a place for a PPA ends with its MAC");
static_assert(AT_PPA_PLACES + PPAS * PPA_PLACE_SIZE == AT_SLOTS, "the slots stand behind the places for PPAs");
static_assert(AT_NUMBERS + INDICATIONS * NUMBER_SIZE == SLOT_SIZE, "a slot ends with its places for numbers");
static_assert(AT_SLOTS + STREAMS * SLOT_SIZE == KUNGTHEVI_TABLE_SIZE, "the image ends with its slots");

/* Offsets in a record. */
enum {
    AT_KIND = 0,
    AT_STREAM = 1, /* in every kind except G, O, I and f */
    AT_LENGTH = 2, /* of a message's block, and of an M's data */
    AT_BLOCK = 3,
    BLOCK_SIZE = 96,
    AT_DATA = 3, /* in an M */
    DATA_SIZE = 64
};

/* Sizes of records, and of what one call reads at most: a message of code 0x07 and its M. */
enum {
    LONGEST_RECORD = AT_BLOCK + BLOCK_SIZE, /* a message; every other kind is shorter */
    DATA_RECORD_SIZE = AT_DATA + DATA_SIZE,
    FRAME_SIZE = 1 + NUMBER_SIZE + 1 + TYPE_ADDRESS_SIZE + TYPE_ADDRESS_SIZE + 1 + DATA_SIZE,
    LONGEST_CALL = LONGEST_RECORD + DATA_RECORD_SIZE
};

static_assert(LONGEST_RECORD <= KUNGTHEVI_ROOM_SIZE, "the room holds any record");
static_assert(STREAMS * LONGEST_CALL <= KUNGTHEVI_FRAME_ROOM_SIZE, "a frame's room holds one for each stream");

#endif
