/* generate SEED CALLS: writes a capture of so many calls, which follows from the two numbers. */
#include <stdio.h>
#include <stdlib.h>

#include "generate.h"
#include "number.h"

static bool write_capture(uint64_t seed, uint64_t calls)
{
    struct generator generator;
    struct record record;
    generate_start(&generator, seed, calls);
    while (generate_next(&generator, &record))
        if (fwrite(record.bytes, 1, record.size, stdout) != record.size)
            return false;
    return fflush(stdout) == 0;
}

int main(int argc, char **argv)
{
    uint64_t seed;
    uint64_t calls;
    if (argc != 3 || !number_read(argv[1], UINT64_MAX, &seed) || !number_read(argv[2], UINT64_MAX, &calls)) {
        fprintf(stderr, "usage: generate SEED CALLS > capture\n");
        return EXIT_FAILURE;
    }
    if (!write_capture(seed, calls)) {
        perror("generate");
        return EXIT_FAILURE;
    }
    return EXIT_SUCCESS;
}
