/* A capture in memory. */
#include "capture.h"

#include <string.h>

void capture_clear(struct capture *capture)
{
    capture->calls = 0;
    capture->starts[0] = 0;
}

bool capture_is_full(const struct capture *capture)
{
    return capture->calls == CAPTURE_CALLS;
}

void capture_add(struct capture *capture, const uint8_t *record, size_t size)
{
    size_t start = capture_size(capture);
    if (capture_is_full(capture))
        return;
    memcpy(capture->bytes + start, record, size);
    capture->calls++;
    capture->starts[capture->calls] = start + size;
}

const uint8_t *capture_record(const struct capture *capture, size_t call)
{
    return capture->bytes + capture->starts[call];
}

size_t capture_record_size(const struct capture *capture, size_t call)
{
    return capture->starts[call + 1] - capture->starts[call];
}

size_t capture_size(const struct capture *capture)
{
    return capture->starts[capture->calls];
}
