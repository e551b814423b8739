/* How far a long reading has come: one line on a terminal, which is gone when the reading ends. */
#ifndef HARNESS_PROGRESS_H
#define HARNESS_PROGRESS_H

#include <stdbool.h>
#include <stdint.h>
#include <time.h>

struct progress {
    bool wanted;
    int width;             /* of the line that stands on the terminal, 0 if none */
    uint64_t total;        /* bytes that there are to read, 0 if unknown */
    struct timespec shown; /* when the line was last written */
};

/* Wanted where standard error is a terminal, unless standard output is one too: there the text shows how far it is. */
void progress_start(struct progress *progress, int file);

/* So many bytes are read. The line appears after 4 MB and changes a few times a second. */
void progress_at(struct progress *progress, uint64_t done);

void progress_end(struct progress *progress);

#endif
