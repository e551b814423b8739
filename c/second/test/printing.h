/* printing.h - tests what a command prints. */
#ifndef PRINTING_H
#define PRINTING_H

#include <stddef.h>
#include <stdint.h>
#include <stdio.h>

#include "bench.h"
#include "../ending.h"

typedef enum ending print_text(FILE *in, FILE *out);

/* A file for what is printed, or for the input. */
FILE *new_file(void);

/* What was printed to the file is the text wanted. Closes the file. */
void check_printed(struct bench *b, FILE *out, const char *wanted,
                   const char *what);

/* The command takes the input to its end and prints the text wanted. */
void prints(struct bench *b, print_text *command, const uint8_t *input,
            size_t size, const char *wanted, const char *what);

/* The input is written as records, as in bench.h. */
void prints_text(struct bench *b, print_text *command, const char *input,
                 const char *wanted);

#endif
