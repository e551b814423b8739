/* sap.h - the SAPs and Ethernet types that may be bound, and addresses. */
#ifndef SAP_H
#define SAP_H

#include <stdbool.h>
#include <stddef.h>
#include <stdint.h>

#include "table.h"

enum {
    PEER_ADDRESS_SIZE = 7,    /* a MAC and 1 byte of SAP */
    LONGEST_ADDRESS_SIZE = 8  /* a MAC and 2 bytes of Ethernet type */
};

/* The length of a SAP and of an Ethernet type in an address. */
enum {
    SAP_LENGTH = 1,
    TYPE_LENGTH = 2
};

/* Why a number of a SAP field is none to bind. No number is excluded twice. */
enum exclusion {
    EXCLUDED_ODD = 1,
    EXCLUDED_RESERVED = 2,
    EXCLUDED_BETWEEN = 3, /* SAPs and types */
    EXCLUDED_ABOVE = 4    /* the types */
};

/* The section of the manual that excludes a number. */
enum section {
    SECTION_BINDING = 1,
    SECTION_RESERVED = 2
};

/* By the answer of second_sap; a number that is neither is excluded. */
bool second_is_sap(uint32_t value);
bool second_is_type(uint32_t value);

/*
 * The length of a bound stream's SAP, 1 or 2. The form follows from the
 * number, not from the mode.
 */
size_t second_sap_length(uint16_t sap);

/* The length of a bound stream's address, 7 or 8. */
size_t second_address_length(uint16_t sap);

/* Writes a bound stream's address and returns its length. */
size_t second_address(const uint8_t mac[MAC_SIZE], uint16_t sap,
                      uint8_t address[LONGEST_ADDRESS_SIZE]);

#endif
