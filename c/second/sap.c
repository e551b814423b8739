/* sap.c - the SAPs and Ethernet types that may be bound, and addresses. */
#include "sap.h"

#include <string.h>

#include "bytes.h"
#include "second.h"

/* Every step-th number, from the first to the last. */
struct excluded {
    enum exclusion exclusion;
    enum section section;
    uint32_t first;
    uint32_t last;
    uint32_t step;
};

/* The manual's exclusions, each beside the section that it is from. */
static const struct excluded exclusions[] = {
    { EXCLUDED_ODD, SECTION_BINDING, 0x01, 0xff, 2 },
    /* RFC 1010: 'Reserved (DOD IP)'. It reserves no Ethernet type. */
    { EXCLUDED_RESERVED, SECTION_RESERVED, 0x06, 0x06, 1 },
    { EXCLUDED_BETWEEN, SECTION_BINDING, 0x100, 0x5ff, 1 },
    { EXCLUDED_ABOVE, SECTION_BINDING, 0x10000, 0xffffffff, 1 },
};

static bool is_among(uint32_t number, const struct excluded *excluded)
{
    return number >= excluded->first && number <= excluded->last
        && (number - excluded->first) % excluded->step == 0;
}

/* NULL if the number is not excluded. */
static const struct excluded *find_excluded(uint32_t number)
{
    size_t count = sizeof exclusions / sizeof exclusions[0];

    for (size_t i = 0; i < count; i++)
        if (is_among(number, &exclusions[i]))
            return &exclusions[i];
    return NULL;
}

uint32_t second_sap(uint32_t number)
{
    const struct excluded *excluded = find_excluded(number);

    /* What is not excluded is at most 0xffff. */
    if (excluded == NULL)
        return (uint32_t)second_sap_length((uint16_t)number);
    return (uint32_t)excluded->section << 16
        | (uint32_t)excluded->exclusion << 8;
}

bool second_is_sap(uint32_t value)
{
    return second_sap(value) == SAP_LENGTH;
}

bool second_is_type(uint32_t value)
{
    return second_sap(value) == TYPE_LENGTH;
}

size_t second_sap_length(uint16_t sap)
{
    return sap < 256 ? SAP_LENGTH : TYPE_LENGTH;
}

size_t second_address_length(uint16_t sap)
{
    return MAC_SIZE + second_sap_length(sap);
}

size_t second_address(const uint8_t mac[MAC_SIZE], uint16_t sap,
                      uint8_t address[LONGEST_ADDRESS_SIZE])
{
    memcpy(address, mac, MAC_SIZE);
    if (second_sap_length(sap) == SAP_LENGTH)
        address[MAC_SIZE] = (uint8_t)sap;
    else
        put16(address + MAC_SIZE, sap);
    return second_address_length(sap);
}
