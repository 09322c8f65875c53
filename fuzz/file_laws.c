/* Read plans across the chunks of a file. */
#include "laws.h"

#include <string.h>

/* What the file has in chunk k of the given ones. */
static uint64_t chunk_len(const call *call, size_t k)
{
    uint64_t before = (call->number[0] + k) * EZK_CHUNK, file_len = call->number[1];
    uint64_t left = file_len < before ? 0 : file_len - before;
    return left < EZK_CHUNK ? left : EZK_CHUNK;
}

/* The plan of this many bytes from `from` on, of chunk k alone. */
static answer alone(const call *call, const uint8_t *list, size_t k, uint64_t from,
                    uint64_t count)
{
    struct call reading = other(call, READ_PLAN, list, call->lengths[k]);
    const uint64_t number[] = {call->number[0] + k, chunk_len(call, k), call->number[2], from,
                               count};
    memcpy(reading.number, number, sizeof number);
    return make_ample(&reading);
}

/* The pieces divide the read, each in its chunk. */
static void divides(const call *call, const answer *a)
{
    uint64_t place = 0;
    must(call, a->value[0] % EZK_PIECE == 0, "half a piece");
    for (size_t i = 0; i < a->value[0] / EZK_PIECE; i++) {
        piece p = piece_at(a->written[0], i);
        uint64_t pos = call->number[3] + place;
        must(call, p.len > 0 && p.place == place, "an empty piece, or a gap");
        must(call, p.index == call->number[0] + pos / EZK_CHUNK, "the index of another chunk");
        must(call, pos % EZK_CHUNK + p.len <= EZK_CHUNK, "a piece across a chunk's edge");
        place += p.len;
    }
    must(call, place == file_read(call), "the pieces do not end with the read");
}

/* Behind `at` stand the pieces of a chunk's own plan, their places moved; returns their end. */
static size_t goes_on(const call *call, const answer *a, size_t at, const answer *own,
                      uint64_t moved)
{
    size_t len = own->value[0];
    must(call, at + len <= a->value[0], "pieces of a chunk are missing");
    for (size_t i = 0; i < len; i += EZK_PIECE) {
        uint8_t bytes[EZK_PIECE];
        memcpy(bytes, own->written[0] + i, EZK_PIECE);
        put(bytes + 6, piece_at(bytes, 0).place + moved, 4);
        must(call, !memcmp(a->written[0] + at + i, bytes, EZK_PIECE),
             "another piece than in the chunk's own plan");
    }
    return at + len;
}

/* The plan is the chunks' own plans, one after the other. */
static void one_by_one(const call *call, const answer *a)
{
    uint64_t start = call->number[3], end = start + file_read(call);
    const uint8_t *list = call->bytes;
    size_t at = 0;
    for (size_t k = 0; k < call->lists; list += call->lengths[k++]) {
        uint64_t edge = k * EZK_CHUNK, from = start < edge ? edge : start;
        answer own = alone(call, list, k, from - edge, from < end ? end - from : 0);
        at = goes_on(call, a, at, &own, from - start);
        done_with(&own);
    }
    must(call, at == a->value[0], "pieces of no chunk");
}

/* One list is read as by ezk_read_plan, whose read is cut by the chunk's length. */
static void as_one_chunk(const call *call, const answer *a)
{
    answer own = alone(call, call->bytes, 0, call->number[3], call->number[4]);
    must(call, same(&own, a->written[0], a->value[0]), "one list has another plan by itself");
    done_with(&own);
}

/* The list that is told is the first one that ezk_check refuses, as it is refused there. */
static void refused_list(const call *call, const answer *a)
{
    const uint8_t *list = call->bytes;
    uint64_t refusal = 0;
    for (size_t k = 0; k < call->lists && !refusal; list += call->lengths[k++]) {
        struct call checking = other(call, CHECK, list, call->lengths[k]);
        answer own = make_ample(&checking);
        refusal = own.refusal;
        must(call, !refusal || (a->refusal == refusal && a->place == own.place),
             "refused otherwise than by itself");
        must(call, !refusal || a->index == call->number[0] + k, "the index of another list");
        done_with(&own);
    }
    must(call, refusal != 0, "no list is refused by itself");
}

void file_law(const call *call, const answer *a)
{
    if (a->refusal == EZK_CHUNK_LISTS || a->refusal == EZK_BLOCK_SIZE)
        return;
    if (a->refusal) {
        refused_list(call, a);
        return;
    }
    divides(call, a);
    one_by_one(call, a);
    if (call->lists == 1)
        as_one_chunk(call, a);
}
