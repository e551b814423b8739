/* The long capture that programs replay, in a file. */
#ifndef BENCH_LONG_CAPTURE_H
#define BENCH_LONG_CAPTURE_H

#include <stdbool.h>
#include <stdint.h>

struct long_capture {
    uint64_t records;
    uint64_t bytes;
};

/* Writes the records of one run of the generator until there are 100 MB of them. False if the file can't be written. */
bool long_capture_write(const char *path, struct long_capture *capture);

#endif
