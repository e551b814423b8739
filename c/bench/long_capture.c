/* The long capture that programs replay, in a file. */
#include "long_capture.h"

#include <stdio.h>

#include "../generate/generate.h"

enum {
    SEED = 1,
    LEAST_BYTES = 100000000
};

/* The generator is never told to end, as its last record may be one that ends the reading. */
static bool write_records(FILE *file, struct long_capture *capture)
{
    struct generator generator;
    struct record record;
    generate_start(&generator, SEED, UINT64_MAX);
    *capture = (struct long_capture){ 0, 0 };
    while (capture->bytes < LEAST_BYTES && generate_next(&generator, &record)) {
        if (fwrite(record.bytes, 1, record.size, file) != record.size)
            return false;
        capture->bytes += record.size;
        capture->records++;
    }
    return true;
}

bool long_capture_write(const char *path, struct long_capture *capture)
{
    FILE *file = fopen(path, "wb");
    if (file == NULL)
        return false;
    bool written = write_records(file, capture);
    return fclose(file) == 0 && written;
}
