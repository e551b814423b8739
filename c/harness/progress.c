/* How far a long reading has come: one line on a terminal, which is gone when the reading ends. */
#define _POSIX_C_SOURCE 200809L
#include "progress.h"

#include <inttypes.h>
#include <stdio.h>
#include <sys/stat.h>
#include <unistd.h>

#define MEGABYTE UINT64_C(1000000)
#define LONG_READING (4 * MEGABYTE)

enum { PAUSE_MS = 200 };

/* The bytes of a regular file from where it stands on; 0 for any other, whose end is not known. */
static uint64_t bytes_ahead(int file)
{
    struct stat status;
    if (fstat(file, &status) != 0 || !S_ISREG(status.st_mode))
        return 0;
    off_t here = lseek(file, 0, SEEK_CUR);
    return here < 0 || here > status.st_size ? 0 : (uint64_t)(status.st_size - here);
}

void progress_start(struct progress *progress, int file)
{
    *progress = (struct progress){ .wanted = isatty(STDERR_FILENO) && !isatty(STDOUT_FILENO) };
    if (progress->wanted)
        progress->total = bytes_ahead(file);
}

static int64_t milliseconds_between(const struct timespec *from, const struct timespec *to)
{
    return ((int64_t)to->tv_sec - from->tv_sec) * 1000 + (to->tv_nsec - from->tv_nsec) / 1000000;
}

/* The blanks are for a terminal that cannot erase. */
static void erase(struct progress *progress)
{
    if (progress->width > 0)
        fprintf(stderr, "\r%*s\r", progress->width, "");
    progress->width = 0;
}

/* A file that grew past its first size has no known end any more. */
static void show(struct progress *progress, uint64_t done)
{
    erase(progress);
    if (progress->total < done)
        progress->width = fprintf(stderr, "%" PRIu64 " MB", done / MEGABYTE);
    else
        progress->width = fprintf(stderr, "%" PRIu64 " of %" PRIu64 " MB, %" PRIu64 "%%", done / MEGABYTE,
                                  progress->total / MEGABYTE, done * 100 / progress->total);
}

void progress_at(struct progress *progress, uint64_t done)
{
    struct timespec now;
    if (!progress->wanted || done <= LONG_READING)
        return;
    clock_gettime(CLOCK_MONOTONIC, &now);
    if (progress->width > 0 && milliseconds_between(&progress->shown, &now) < PAUSE_MS)
        return;
    progress->shown = now;
    show(progress, done);
}

void progress_end(struct progress *progress)
{
    erase(progress);
}
