/* Reading texts of records. */
#include "text.h"

#include <string.h>

static unsigned digit(char letter)
{
    static const char digits[] = "0123456789abcdef";
    return (unsigned)(strchr(digits, letter) - digits);
}

/* What a record of the kind is filled up to with zeros. */
static size_t filled_size(uint8_t kind)
{
    switch (kind) {
    case 'P':
    case 'C':
        return LONGEST_RECORD;
    case 'M':
        return DATA_RECORD_SIZE;
    case 'f':
        return FRAME_SIZE;
    default:
        return 0;
    }
}

static size_t read_one(const char **text, uint8_t *record)
{
    size_t size = 0;
    record[size++] = (uint8_t)*(*text)++;
    *text += strspn(*text, " ");
    while (**text != '\0' && strchr(";+", **text) == NULL) {
        record[size++] = (uint8_t)(digit((*text)[0]) << 4 | digit((*text)[1]));
        *text += 2;
        *text += strspn(*text, " ");
    }
    return size < filled_size(record[0]) ? filled_size(record[0]) : size;
}

size_t text_record(const char **text, uint8_t record[LONGEST_CALL])
{
    size_t size = 0;
    memset(record, 0, LONGEST_CALL);
    if (**text != '\0')
        size = read_one(text, record);
    if (**text == '+') {
        *text += strspn(*text, "+ ");
        size += read_one(text, record + size);
    }
    *text += strspn(*text, "; ");
    return size;
}
