/* Reading a table's image, laid out as docs/IMAGE.md says. The image is sound; a stream is under 16. */
#ifndef GENERATE_IMAGE_H
#define GENERATE_IMAGE_H

#include <stdbool.h>
#include <stdint.h>

bool image_is_open(const uint8_t *image, unsigned stream);
unsigned image_open_streams(const uint8_t *image);
uint32_t image_counter(const uint8_t *image);

unsigned image_ppas(const uint8_t *image);
uint32_t image_ppa_number(const uint8_t *image, unsigned place);
const uint8_t *image_ppa_mac(const uint8_t *image, unsigned place);

/* The place of the PPA of that number, or -1. */
int image_find_ppa(const uint8_t *image, uint32_t number);

unsigned image_state(const uint8_t *image, unsigned stream);
unsigned image_mode(const uint8_t *image, unsigned stream);
unsigned image_sap(const uint8_t *image, unsigned stream);

/* Of the stream's address, by its SAP or type; that of an unbound stream is as for a SAP. */
unsigned image_address_size(const uint8_t *image, unsigned stream);

uint32_t image_ppa(const uint8_t *image, unsigned stream);
unsigned image_granted(const uint8_t *image, unsigned stream);
unsigned image_indications(const uint8_t *image, unsigned stream);

/* The correlation number at a place of the stream's list, oldest first. */
uint32_t image_number(const uint8_t *image, unsigned stream, unsigned place);

/* The place of an open number in the stream's list, or -1. */
int image_find_number(const uint8_t *image, unsigned stream, uint32_t number);

#endif
