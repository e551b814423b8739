/* The captures that a command is given: one text for each, one behind the other. */
#ifndef HARNESS_CAPTURES_H
#define HARNESS_CAPTURES_H

#include <stddef.h>

#include "calls.h"
#include "status.h"
#include "text.h"

/* Makes the calls of a capture, and prints their text. */
typedef enum status print_calls(struct text *text, struct calls *calls);

/* Goes through the files of those names, up to a write that fails. No file means standard input. */
enum status captures_print(struct text *text, char *const *files, size_t count, print_calls *print);

#endif
