/* What the examples share: reading numbers, writing records, stopping at a refusal, printing. */
#include <inttypes.h>
#include <stdio.h>
#include <stdlib.h>

#include "ezumokarin.h"

/* A big-endian number of `width` bytes. */
static inline uint64_t number(const uint8_t *bytes, int width)
{
    uint64_t n = 0;
    while (width-- > 0)
        n = n << 8 | *bytes++;
    return n;
}

/* Writes a record of pos, id, size, off and len; returns where it ends. */
static inline uint8_t *put_record(uint8_t *to, const uint64_t fields[5])
{
    static const int widths[5] = {4, 8, 4, 4, 4};
    for (int field = 0; field < 5; field++)
        for (int byte = widths[field]; byte-- > 0;)
            *to++ = (uint8_t)(fields[field] >> 8 * byte);
    return to;
}

/* Ends the program where a call was refused. */
static inline void passed(uint64_t refusal, uint64_t place)
{
    if (!refusal)
        return;
    printf("refused %" PRIu64 " at %" PRIu64 "\n", refusal, place);
    exit(1);
}

/* A line for each record of `len` bytes: pos, id, size, off, len. */
static inline void print_records(const uint8_t *records, size_t len)
{
    for (const uint8_t *r = records; r < records + len; r += EZK_RECORD)
        printf("%" PRIu64 " %" PRIu64 " %" PRIu64 " %" PRIu64 " %" PRIu64 "\n", number(r, 4),
               number(r + 4, 8), number(r + 12, 4), number(r + 16, 4), number(r + 20, 4));
}
