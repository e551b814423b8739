/* Captures of generated records. */
#include "fill.h"

#include "../generate/generate.h"

/* The number of streams is the seed, too, so that no two are alike. The generator is never told to end, as its last
 * record may be one that ends the reading. */
void fill_mixed(struct capture *capture, unsigned streams)
{
    struct generator generator;
    struct record record;
    generate_start(&generator, streams, UINT64_MAX);
    generator.plan.additions = PPAS;
    generator.plan.streams = streams;
    while (!capture_is_full(capture) && generate_next(&generator, &record))
        capture_add(capture, record.bytes, record.size);
}
