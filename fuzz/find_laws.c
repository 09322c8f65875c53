/* Seeking in views, and in rows that are none. */
#include "laws.h"

static int holds(record r, uint64_t position)
{
    return r.pos <= position && position < r.pos + r.len;
}

/* Whether the first segments stand as in a view: from 0 on, without gaps, none empty; their end. */
static int stand_as_in_view(const uint8_t *row, size_t segments, uint64_t *end)
{
    *end = 0;
    for (size_t i = 0; i < segments; i++) {
        record r = record_at(row, i);
        if (r.pos != *end || r.len == 0)
            return 0;
        *end += r.len;
    }
    return 1;
}

/* A segment below the number, its five numbers, and it holds the position. */
static void found_law(const call *call, const uint64_t *value, size_t segments)
{
    must(call, value[1] < segments, "a segment at or past the number");
    record r = record_at(call->bytes, value[1]);
    must(call,
         value[2] == r.pos && value[3] == r.id && value[4] == r.size && value[5] == r.off &&
             value[6] == r.len,
         "other numbers than the segment's");
    must(call, holds(r, call->number[1]), "a segment that does not hold the position");
}

void find_law(const call *call, const answer *a)
{
    size_t all = call->len / EZK_RECORD;
    size_t segments = call->number[0] < all ? call->number[0] : all;
    uint64_t end;
    must(call, a->value[0] <= 1, "neither found nor none");
    if (a->value[0])
        found_law(call, a->value, segments);
    for (int i = 1; i < VALUES; i++)
        must(call, a->value[0] || !a->value[i], "none has numbers");
    if (stand_as_in_view(call->bytes, segments, &end))
        must(call, a->value[0] == (call->number[1] < end), "found past the end, or none before it");
}

void seek_in(const call *viewing, const answer *view)
{
    uint64_t chunk_len = viewing->number[0];
    const uint64_t positions[] = {0, chunk_len * viewing->salt / 256, chunk_len - 1, chunk_len};
    for (size_t i = 0; i < sizeof positions / sizeof *positions; i++) {
        struct call seeking = other(viewing, FIND, view->written[0], view->value[0]);
        seeking.number[0] = view->value[0] / EZK_RECORD;
        seeking.number[1] = positions[i];
        answer a = make_ample(&seeking);
        find_law(&seeking, &a);
        must(viewing, a.value[0] == (positions[i] < chunk_len), "another end than the chunk's");
        done_with(&a);
    }
}
