/* kungthevi fates: prints what became of each call that rang in. */
#ifndef HARNESS_FATES_H
#define HARNESS_FATES_H

#include <stddef.h>

#include "status.h"
#include "text.h"

/* Counts each capture from a fresh table, and prints the texts of docs/FATES.md. No file means standard input. */
enum status fates(struct text *text, char *const *files, size_t count);

#endif
