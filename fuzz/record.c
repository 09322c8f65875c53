#include "record.h"

#include "ezumokarin.h"

uint64_t be(const uint8_t *bytes, int width)
{
    uint64_t n = 0;
    while (width-- > 0)
        n = n << 8 | *bytes++;
    return n;
}

uint8_t *put(uint8_t *to, uint64_t n, int width)
{
    for (int i = width; i-- > 0; n >>= 8)
        to[i] = (uint8_t)n;
    return to + width;
}

record record_at(const uint8_t *list, size_t place)
{
    const uint8_t *r = list + place * EZK_RECORD;
    return (record){be(r, 4), be(r + 4, 8), be(r + 12, 4), be(r + 16, 4), be(r + 20, 4)};
}

piece piece_at(const uint8_t *plan, size_t place)
{
    const uint8_t *p = plan + place * EZK_PIECE;
    return (piece){p[1] == 'B',    be(p + 2, 4),  be(p + 6, 4),  be(p + 10, 8),
                   be(p + 18, 4), be(p + 22, 4), be(p + 26, 4), be(p + 30, 4)};
}

uint8_t *put_record(uint8_t *to, record r)
{
    to = put(put(to, r.pos, 4), r.id, 8);
    return put(put(put(to, r.size, 4), r.off, 4), r.len, 4);
}
