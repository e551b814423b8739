#include "image.h"

#include "record.h"

static const uint8_t *ppa_place(const uint8_t *image, unsigned place)
{
    return image + AT_PPA_PLACES + PPA_PLACE_SIZE * place;
}

static const uint8_t *slot(const uint8_t *image, unsigned stream)
{
    return image + AT_SLOTS + SLOT_SIZE * stream;
}

bool image_is_open(const uint8_t *image, unsigned stream)
{
    return (get16(image + AT_FREE_MASK) >> stream & 1) == 0;
}

unsigned image_open_streams(const uint8_t *image)
{
    unsigned count = 0;
    for (unsigned stream = 0; stream < STREAMS; stream++)
        count += image_is_open(image, stream);
    return count;
}

uint32_t image_counter(const uint8_t *image)
{
    return get32(image + AT_COUNTER);
}

unsigned image_ppas(const uint8_t *image)
{
    return image[AT_PPA_COUNT];
}

uint32_t image_ppa_number(const uint8_t *image, unsigned place)
{
    return get32(ppa_place(image, place) + AT_PLACE_NUMBER);
}

const uint8_t *image_ppa_mac(const uint8_t *image, unsigned place)
{
    return ppa_place(image, place) + AT_PLACE_MAC;
}

int image_find_ppa(const uint8_t *image, uint32_t number)
{
    for (unsigned place = 0; place < image_ppas(image); place++)
        if (image_ppa_number(image, place) == number)
            return (int)place;
    return -1;
}

unsigned image_state(const uint8_t *image, unsigned stream)
{
    return slot(image, stream)[AT_STATE];
}

unsigned image_mode(const uint8_t *image, unsigned stream)
{
    return slot(image, stream)[AT_MODE];
}

unsigned image_sap(const uint8_t *image, unsigned stream)
{
    return get16(slot(image, stream) + AT_SAP);
}

unsigned image_address_size(const uint8_t *image, unsigned stream)
{
    return image_sap(image, stream) < TYPE_FIRST ? ADDRESS_SIZE : TYPE_ADDRESS_SIZE;
}

uint32_t image_ppa(const uint8_t *image, unsigned stream)
{
    return get32(slot(image, stream) + AT_SLOT_PPA);
}

unsigned image_granted(const uint8_t *image, unsigned stream)
{
    return slot(image, stream)[AT_GRANTED];
}

unsigned image_indications(const uint8_t *image, unsigned stream)
{
    return slot(image, stream)[AT_INDICATIONS];
}

uint32_t image_number(const uint8_t *image, unsigned stream, unsigned place)
{
    return get32(slot(image, stream) + AT_NUMBERS + NUMBER_SIZE * place);
}

int image_find_number(const uint8_t *image, unsigned stream, uint32_t number)
{
    for (unsigned place = 0; place < image_indications(image, stream); place++)
        if (image_number(image, stream, place) == number)
            return (int)place;
    return -1;
}
