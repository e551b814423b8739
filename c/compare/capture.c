/* Filling captures. */
#include "capture.h"

#include <string.h>

#include "../generate/generate.h"

void originals_generate(struct originals *originals, uint64_t seed, size_t count)
{
    struct generator generator;
    generate_start(&generator, seed, count);
    originals->count = 0;
    while (originals->count < count && generate_next(&generator, &originals->records[originals->count]))
        originals->count++;
}

void capture_add(struct capture *capture, const struct record *record)
{
    memcpy(capture->bytes + capture->size, record->bytes, record->size);
    capture->size += record->size;
}
