/* What a record that a call wrote tells of a connection indication. */
#ifndef HARNESS_NEWS_H
#define HARNESS_NEWS_H

#include <stdbool.h>
#include <stdint.h>

#include "fate.h"
#include "record_out.h"

struct news {
    uint8_t stream;  /* which the indication was written to */
    uint32_t number; /* its correlation number */
    enum fate fate;  /* open: it rings in */
};

/* Reads the news in a record written for the call whose record was lent. Returns false if there is none. */
bool news_read(struct news *news, const uint8_t *lent, const struct record_out *written);

#endif
