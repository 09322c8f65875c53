#include "pieces.h"

#include <string.h>

#include "ezumokarin.h"
#include "record.h"

size_t pieces(const plan *plan)
{
    return plan->len / EZK_PIECE;
}

uint8_t *nth(const plan *plan, size_t k)
{
    return plan->bytes + k * EZK_PIECE;
}

void exchange(plan *plan, size_t i, size_t j)
{
    uint8_t kept[EZK_PIECE];
    memcpy(kept, nth(plan, i), EZK_PIECE);
    memmove(nth(plan, i), nth(plan, j), EZK_PIECE);
    memcpy(nth(plan, j), kept, EZK_PIECE);
}

void reverse(plan *plan)
{
    for (size_t i = 0, j = pieces(plan); i + 1 < j; i++)
        exchange(plan, i, --j);
}

void shuffle(plan *plan, uint64_t seed)
{
    for (size_t i = pieces(plan); i > 1; i--) {
        seed = seed * 6364136223846793005u + 1442695040888963407u;
        exchange(plan, i - 1, (seed >> 33) % i);
    }
}

void leave_out(plan *plan, size_t k)
{
    size_t end = (k + 1) * EZK_PIECE;
    memmove(nth(plan, k), nth(plan, k + 1), plan->len - end);
    plan->len -= EZK_PIECE;
}

void add_again(plan *plan, size_t k)
{
    memcpy(plan->bytes + plan->len, nth(plan, k), EZK_PIECE);
    plan->len += EZK_PIECE;
}

void cut_in_two(plan *plan, size_t k, uint64_t kept)
{
    piece whole = piece_at(plan->bytes, k);
    add_again(plan, k);
    uint8_t *rest = plan->bytes + plan->len - EZK_PIECE;
    put(nth(plan, k) + LEN_AT, kept, 4);
    put(rest + PLACE_AT, whole.place + kept, 4);
    if (whole.object)
        put(rest + IN_BLOCK_AT, whole.in_block + kept, 4);
    put(rest + LEN_AT, whole.len - kept, 4);
}
