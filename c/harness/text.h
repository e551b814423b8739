/* A text being written: words, numbers and bytes in hex, through a buffer. */
#ifndef HARNESS_TEXT_H
#define HARNESS_TEXT_H

#include <stdbool.h>
#include <stddef.h>
#include <stdint.h>

enum { TEXT_BUFFER = 1 << 16 };

struct text {
    int file;
    int error; /* errno of the write that failed, else 0; nothing is written after it */
    size_t filled;
    char buffer[TEXT_BUFFER];
};

void text_start(struct text *text, int file);

void text_character(struct text *text, char character);
void text_words(struct text *text, const char *words);
void text_decimal(struct text *text, uint64_t number);

/* Two small letters or digits for each byte. */
void text_hex(struct text *text, const uint8_t *bytes, size_t size);

/* Writes what the buffer holds. */
void text_flush(struct text *text);

/*
 * Ends the text and closes its file. Returns whether all of it was written, and says on standard error why not, except
 * where a reader left early: that reader has what it wanted.
 */
bool text_end(struct text *text);

#endif
