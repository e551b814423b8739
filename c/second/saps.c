/* saps.c - prints which numbers are SAPs, types or excluded, and why. */
#include "saps.h"

#include <stdbool.h>
#include <stddef.h>
#include <stdint.h>

#include "sap.h"
#include "second.h"

/* 16 if it is no digit. */
static unsigned digit_of(char c)
{
    if (c >= '0' && c <= '9')
        return (unsigned)(c - '0');
    if (c >= 'a' && c <= 'f')
        return (unsigned)(c - 'a') + 10;
    if (c >= 'A' && c <= 'F')
        return (unsigned)(c - 'A') + 10;
    return 16;
}

/* One digit at least, and nothing else. False if it is no such number. */
static bool read_digits(const char *text, unsigned base, uint32_t *number)
{
    uint64_t value = 0;

    if (*text == '\0')
        return false;
    for (; *text != '\0'; text++) {
        unsigned digit = digit_of(*text);

        if (digit >= base)
            return false;
        value = value * base + digit;
        if (value > UINT32_MAX)
            return false;
    }
    *number = (uint32_t)value;
    return true;
}

static bool read_number(const char *word, uint32_t *number)
{
    if (word[0] == '0' && word[1] == 'x')
        return read_digits(word + 2, 16, number);
    return read_digits(word, 10, number);
}

static void print_excluded(FILE *out, uint32_t answer)
{
    static const char *const reasons[] = {
        [EXCLUDED_ODD] = "odd, where SAPs are even",
        [EXCLUDED_RESERVED] = "reserved, by RFC 1010",
        [EXCLUDED_BETWEEN] = "between the SAPs, which end at 0xff,"
                             " and the types, which begin at 0x600",
        [EXCLUDED_ABOVE] = "above the types, which end at 0xffff",
    };
    static const char *const sections[] = {
        [SECTION_BINDING] = "Binding",
        [SECTION_RESERVED] = "Reserved IEEESAPS/Ethertypes",
    };

    fprintf(out, "excluded: %s (manual, '%s')\n", reasons[answer >> 8 & 0xff],
            sections[answer >> 16 & 0xff]);
}

static enum ending print_number(FILE *out, uint32_t number)
{
    uint32_t answer = second_sap(number);
    int digits = number <= 0xff ? 2 : number <= 0xffff ? 4 : 8;

    fprintf(out, "0x%0*lx ", digits, (unsigned long)number);
    switch (answer & 0xff) {
    case SAP_LENGTH:
        fputs("SAP\n", out);
        return DONE;
    case TYPE_LENGTH:
        fputs("type\n", out);
        return DONE;
    default:
        print_excluded(out, answer);
        return SOME_EXCLUDED;
    }
}

static enum ending print_word(const char *word, FILE *out, FILE *err)
{
    uint32_t number;

    if (read_number(word, &number))
        return print_number(out, number);
    fprintf(err, "dlpi sap: '%s' is no number of four bytes\n", word);
    return NO_NUMBER;
}

/* What is no number decides, whatever else is excluded. */
static enum ending worse(enum ending one, enum ending other)
{
    return one > other ? one : other;
}

enum ending second_saps(char *const words[], FILE *out, FILE *err)
{
    enum ending ending = DONE;

    if (words[0] == NULL) {
        fputs("dlpi sap: no number is given\n", err);
        return NO_NUMBER;
    }
    for (; *words != NULL; words++)
        ending = worse(ending, print_word(*words, out, err));
    return fflush(out) == 0 && !ferror(out) ? ending : WRITING_FAILED;
}
