/* How far the comparison is, on standard error where that is a terminal. */
#ifndef COMPARE_PROGRESS_H
#define COMPARE_PROGRESS_H

#include <stdint.h>

void progress_show(uint64_t calls, uint64_t limit);

/* Clears the line. */
void progress_end(void);

#endif
