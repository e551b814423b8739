/* The library's calls without their soundness test, over a whole capture; link libinner.a. */
#ifndef BENCH_INNER_H
#define BENCH_INNER_H

#include <stddef.h>
#include <stdint.h>

/* Makes the table fresh, whatever it holds, then one call for each record, a datagram with its M, each with
 * KUNGTHEVI_FRAME_ROOM_SIZE bytes of room. The last call is that on the last record, or on the first one that is cut or
 * of an unknown kind. Returns how many calls were refused. A table of another size than KUNGTHEVI_TABLE_SIZE is left as
 * it is, and 2^64 - 1 returned. */
uint64_t inner_run(uint8_t *table, size_t table_len, const uint8_t *capture, size_t capture_len);

#endif
