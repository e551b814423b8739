/* image.c - the table as a run of bytes. */
#include "image.h"

#include <string.h>

#include "bytes.h"
#include "second.h"

/* Where the whole image holds what. */
enum {
    FREE_MASK = 0,
    OPENED = 2,
    PPA_COUNT = 3,
    COUNTER = 4,
    PPA_PLACES = 8,
    PPA_PLACE_SIZE = 10,
    SLOTS = 88,
    SLOT_SIZE = 42
};

/* Where a place for a PPA holds what. */
enum {
    PLACE_NUMBER = 0,
    PLACE_MAC = 4
};

/* Where a slot holds what. */
enum {
    SLOT_STATE = 0,
    SLOT_MODE = 1,
    SLOT_SAP = 2,
    SLOT_PPA = 4,
    SLOT_GRANTED = 8,
    SLOT_INDICATIONS = 9,
    SLOT_NUMBERS = 10,
    SLOT_NUMBER_SIZE = 4
};

static bool ppas_are_tidy(const uint8_t *image)
{
    size_t count = image[PPA_COUNT];

    return count <= PPAS
        && all_zero(image + PPA_PLACES + count * PPA_PLACE_SIZE,
                    (PPAS - count) * PPA_PLACE_SIZE);
}

static bool slot_is_tidy(const uint8_t *slot)
{
    size_t count = slot[SLOT_INDICATIONS];

    return second_state_has_row(slot[SLOT_STATE])
        && count <= INDICATIONS
        && all_zero(slot + SLOT_NUMBERS + count * SLOT_NUMBER_SIZE,
                    (INDICATIONS - count) * SLOT_NUMBER_SIZE);
}

static bool is_tidy(const uint8_t *image, size_t length)
{
    if (length != SECOND_TABLE_SIZE)
        return false;
    if (image[OPENED] > 1 || !ppas_are_tidy(image))
        return false;
    for (unsigned s = 0; s < STREAMS; s++)
        if (!slot_is_tidy(image + SLOTS + s * SLOT_SIZE))
            return false;
    return true;
}

static void read_ppa(const uint8_t *place, struct ppa *ppa)
{
    ppa->number.value = get32(place + PLACE_NUMBER);
    memcpy(ppa->mac, place + PLACE_MAC, MAC_SIZE);
}

static void write_ppa(const struct ppa *ppa, uint8_t *place)
{
    put32(place + PLACE_NUMBER, ppa->number.value);
    memcpy(place + PLACE_MAC, ppa->mac, MAC_SIZE);
}

static void read_slot(const uint8_t *slot, struct stream *stream)
{
    stream->state = slot[SLOT_STATE];
    stream->mode = slot[SLOT_MODE];
    stream->sap = get16(slot + SLOT_SAP);
    stream->ppa.value = get32(slot + SLOT_PPA);
    stream->granted = slot[SLOT_GRANTED];
    stream->indications = slot[SLOT_INDICATIONS];
    for (unsigned i = 0; i < INDICATIONS; i++)
        stream->indication[i].value =
            get32(slot + SLOT_NUMBERS + i * SLOT_NUMBER_SIZE);
}

static void write_slot(const struct stream *stream, uint8_t *slot)
{
    slot[SLOT_STATE] = stream->state;
    slot[SLOT_MODE] = stream->mode;
    put16(slot + SLOT_SAP, stream->sap);
    put32(slot + SLOT_PPA, stream->ppa.value);
    slot[SLOT_GRANTED] = stream->granted;
    slot[SLOT_INDICATIONS] = stream->indications;
    for (unsigned i = 0; i < INDICATIONS; i++)
        put32(slot + SLOT_NUMBERS + i * SLOT_NUMBER_SIZE,
              stream->indication[i].value);
}

/* Bit s of the mask is 1 exactly if stream s is closed. */
static bool is_free(uint16_t free_mask, unsigned s)
{
    return (free_mask >> s & 1) != 0;
}

static uint16_t free_mask_of(const struct table *table)
{
    unsigned free_mask = 0;

    for (unsigned s = 0; s < STREAMS; s++)
        if (!table->stream[s].open)
            free_mask |= 1u << s;
    return (uint16_t)free_mask;
}

bool second_read_image(const uint8_t *image, size_t length, struct table *table)
{
    if (!is_tidy(image, length))
        return false;

    table->opened = image[OPENED] == 1;
    table->counter.value = get32(image + COUNTER);
    table->ppas = image[PPA_COUNT];
    for (unsigned i = 0; i < PPAS; i++)
        read_ppa(image + PPA_PLACES + i * PPA_PLACE_SIZE, &table->ppa[i]);
    for (unsigned s = 0; s < STREAMS; s++) {
        table->stream[s].open = !is_free(get16(image + FREE_MASK), s);
        read_slot(image + SLOTS + s * SLOT_SIZE, &table->stream[s]);
    }
    return true;
}

void second_write_image(const struct table *table, uint8_t *image)
{
    put16(image + FREE_MASK, free_mask_of(table));
    image[OPENED] = table->opened ? 1 : 0;
    image[PPA_COUNT] = table->ppas;
    put32(image + COUNTER, table->counter.value);
    for (unsigned i = 0; i < PPAS; i++)
        write_ppa(&table->ppa[i], image + PPA_PLACES + i * PPA_PLACE_SIZE);
    for (unsigned s = 0; s < STREAMS; s++)
        write_slot(&table->stream[s], image + SLOTS + s * SLOT_SIZE);
}
