/* kungthevi sap: prints of numbers whether a bind can take them, and if not, what excludes them. */
#ifndef HARNESS_SAP_H
#define HARNESS_SAP_H

#include <stddef.h>

#include "status.h"
#include "text.h"

/* A line for each number, in their order. What is no number has none. */
enum status sap(struct text *text, char *const *numbers, size_t count);

#endif
