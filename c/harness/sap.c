/* kungthevi sap: prints of numbers whether a bind can take them, and if not, what excludes them. */
#include "sap.h"

#include <ctype.h>
#include <stdbool.h>
#include <stdint.h>
#include <string.h>

#include "../kungthevi.h"
#include "message.h"

static const char *const exclusions[] = {
    [KUNGTHEVI_EXCLUDED_ODD] = "odd, where SAPs are even",
    [KUNGTHEVI_EXCLUDED_RESERVED] = "reserved, by RFC 1010",
    [KUNGTHEVI_EXCLUDED_BETWEEN] = "between the SAPs, which end at 0xff, and the types, which begin at 0x600",
    [KUNGTHEVI_EXCLUDED_ABOVE] = "above the types, which end at 0xffff",
};

static const char *const places[] = {
    [KUNGTHEVI_PLACE_BINDING] = "Binding",
    [KUNGTHEVI_PLACE_RESERVED] = "Reserved IEEESAPS/Ethertypes",
};

/* 16 if it is none. */
static unsigned digit_of(char character)
{
    static const char digits[] = "0123456789abcdef";
    const char *digit = memchr(digits, tolower((unsigned char)character), 16);
    return digit == NULL ? 16 : (unsigned)(digit - digits);
}

/* Digits and nothing else, no sign and no blank. */
static bool read_digits(const char *digits, unsigned base, uint32_t *number)
{
    uint64_t value = 0;
    for (const char *next = digits; *next != '\0'; next++) {
        if (digit_of(*next) >= base)
            return false;
        value = value * base + digit_of(*next);
        if (value > UINT32_MAX)
            return false;
    }
    *number = (uint32_t)value;
    return *digits != '\0';
}

/* In decimal, or behind 0x in hex. */
static bool read_number(const char *word, uint32_t *number)
{
    return strncmp(word, "0x", 2) == 0 ? read_digits(word + 2, 16, number) : read_digits(word, 10, number);
}

/* In as many bytes as a SAP or a type has, and else in all that the field has. */
static void print_number(struct text *text, uint32_t number)
{
    const uint8_t field[] = {
        (uint8_t)(number >> 24), (uint8_t)(number >> 16), (uint8_t)(number >> 8), (uint8_t)number
    };
    size_t size = number <= 0xff ? 1 : number <= 0xffff ? 2 : sizeof field;
    text_words(text, "0x");
    text_hex(text, field + sizeof field - size, size);
}

static void print_exclusion(struct text *text, uint32_t answer)
{
    text_words(text, " excluded: ");
    text_words(text, exclusions[KUNGTHEVI_SAP_EXCLUSION(answer)]);
    text_words(text, " (manual, '");
    text_words(text, places[KUNGTHEVI_SAP_PLACE(answer)]);
    text_words(text, "')\n");
}

static enum status print_line(struct text *text, uint32_t number)
{
    uint32_t answer = kungthevi_sap(number);
    print_number(text, number);
    if (KUNGTHEVI_SAP_LENGTH(answer) == 0) {
        print_exclusion(text, answer);
        return STATUS_REFUSED;
    }
    text_words(text, KUNGTHEVI_SAP_LENGTH(answer) == 1 ? " SAP\n" : " type\n");
    return STATUS_SERVED;
}

static enum status print_word(struct text *text, const char *word)
{
    uint32_t number;
    if (read_number(word, &number))
        return print_line(text, number);
    message("'%s' is no number of a SAP field: decimal digits, or 0x and digits in hex, up to 0xffffffff", word);
    return STATUS_FAILED;
}

enum status sap(struct text *text, char *const *numbers, size_t count)
{
    enum status status = STATUS_SERVED;
    if (count == 0) {
        message("no number; 'kungthevi --help' says what there is");
        return STATUS_FAILED;
    }
    for (size_t i = 0; i < count && text->error == 0; i++)
        status = status_worse(status, print_word(text, numbers[i]));
    return status;
}
