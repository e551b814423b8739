/* image.h - the table as a run of bytes. */
#ifndef IMAGE_H
#define IMAGE_H

#include <stdbool.h>
#include <stddef.h>
#include <stdint.h>

#include "table.h"

/* False, with the table not set, if the image is not tidy. */
bool second_read_image(const uint8_t *image, size_t length,
                       struct table *table);

/* Writes all SECOND_TABLE_SIZE bytes. */
void second_write_image(const struct table *table, uint8_t *image);

#endif
