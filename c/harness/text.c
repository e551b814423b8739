/* A text being written: words, numbers and bytes in hex, through a buffer. */
#define _POSIX_C_SOURCE 200809L
#include "text.h"

#include <errno.h>
#include <string.h>
#include <unistd.h>

#include "message.h"

enum { DECIMAL_DIGITS = 20 }; /* of the greatest 64-bit number */

void text_start(struct text *text, int file)
{
    text->file = file;
    text->error = 0;
    text->filled = 0;
}

void text_flush(struct text *text)
{
    const char *next = text->buffer;
    while (text->filled > 0 && text->error == 0) {
        ssize_t written = write(text->file, next, text->filled);
        if (written < 0) {
            text->error = errno == EINTR ? 0 : errno;
            continue;
        }
        next += written;
        text->filled -= (size_t)written;
    }
    text->filled = 0;
}

static void append(struct text *text, const char *characters, size_t size)
{
    while (size > 0) {
        if (text->filled == sizeof text->buffer)
            text_flush(text);
        size_t room = sizeof text->buffer - text->filled;
        size_t part = size < room ? size : room;
        memcpy(text->buffer + text->filled, characters, part);
        text->filled += part;
        characters += part;
        size -= part;
    }
}

void text_character(struct text *text, char character)
{
    append(text, &character, 1);
}

void text_words(struct text *text, const char *words)
{
    append(text, words, strlen(words));
}

void text_decimal(struct text *text, uint64_t number)
{
    char digits[DECIMAL_DIGITS];
    size_t first = sizeof digits;
    do {
        digits[--first] = (char)('0' + number % 10);
        number /= 10;
    } while (number != 0);
    append(text, digits + first, sizeof digits - first);
}

void text_hex(struct text *text, const uint8_t *bytes, size_t size)
{
    static const char digits[] = "0123456789abcdef";
    for (size_t i = 0; i < size; i++) {
        if (sizeof text->buffer - text->filled < 2)
            text_flush(text);
        text->buffer[text->filled++] = digits[bytes[i] >> 4];
        text->buffer[text->filled++] = digits[bytes[i] & 0xf];
    }
}

bool text_end(struct text *text)
{
    text_flush(text);
    if (close(text->file) != 0 && text->error == 0)
        text->error = errno;
    if (text->error != 0 && text->error != EPIPE)
        message("standard output: cannot write: %s", strerror(text->error));
    return text->error == 0;
}
