/* Read plans and compaction. */
#include "laws.h"

#include <string.h>

static int one_piece(piece a, piece b)
{
    if (!a.object || !b.object)
        return a.object == b.object;
    return a.id == b.id && a.block == b.block && a.block_len == b.block_len &&
           a.in_block + a.len == b.in_block;
}

/* Whether the piece, `done` bytes of it being read, goes on with the run from `off` on. */
static int reads(piece p, uint64_t done, record run, uint64_t off, uint64_t block_size)
{
    uint64_t o = run.off + off, rest = run.size - o / block_size * block_size;
    if (!p.object || run.id == 0)
        return !p.object && run.id == 0;
    return p.id == run.id && p.block == o / block_size && p.in_block + done == o % block_size &&
           p.block_len == (rest < block_size ? rest : block_size);
}

/* As a list, the view is read by the same plan, unless it is too long. */
static void again_law(const call *call, const answer *a, const answer *view)
{
    struct call again = other(call, READ_PLAN, view->written[0], view->value[0]);
    memcpy(again.number, call->number, sizeof again.number);
    answer plan = make_ample(&again);
    if (view->value[0] / EZK_RECORD > LIST_RECORDS)
        must(call, plan.refusal == EZK_LIST_RECORDS, "a list that is too long is read");
    else
        must(call, same(&plan, a->written[0], a->value[0]), "the view has another plan");
    done_with(&plan);
}

/* Every piece against the runs of the view under it; zeros and holes can be several. */
void plan_law(const call *call, const answer *a)
{
    uint64_t chunk_len = call->number[1], start = call->number[3], left = chunk_read(call);
    size_t pieces = a->value[0] / EZK_PIECE, run = 0;
    must(call, a->value[0] % EZK_PIECE == 0, "half a piece");

    struct call viewing = other(call, VIEW, call->bytes, call->len);
    viewing.number[0] = chunk_len;
    answer view = make_ample(&viewing);
    piece before = {0};
    uint64_t place = 0;
    for (size_t i = 0; i < pieces; i++) {
        const uint8_t *bytes = a->written[0] + i * EZK_PIECE;
        piece p = piece_at(a->written[0], i);
        must(call, bytes[0] == 'R' && (p.object || bytes[1] == 'Z'), "no such mark");
        must(call, p.index == call->number[0], "another index than the given one");
        must(call, p.len > 0 && p.place == place, "an empty piece, or a gap");
        must(call, p.len <= left - place, "a piece past the end of the read");
        must(call, p.object || !(p.id | p.block | p.block_len | p.in_block), "zeros of an object");
        must(call, i == 0 || !one_piece(before, p), "a piece that is not maximal");
        must(call, p.in_block + p.len <= p.block_len || !p.object, "a piece past its object");
        for (uint64_t at = start + place, end = at + p.len; at < end;) {
            record r = record_at(view.written[0], run);
            if (r.pos + r.len <= at) {
                run++;
                continue;
            }
            must(call, reads(p, at - start - place, r, at - r.pos, call->number[2]),
                 "a piece unlike the view");
            at = r.pos + r.len;
        }
        before = p;
        place += p.len;
    }
    must(call, place == left, "the pieces do not end with the read");
    again_law(call, a, &view);
    done_with(&view);
}

void compact_law(const call *call, const answer *a)
{
    uint64_t index = call->number[0], block_size = call->number[1], k = call->number[2];
    size_t kept = call->len - k * EZK_RECORD;
    uint64_t first = UINT64_MAX, end = 0;
    for (size_t i = 0; i < k; i++) {
        record r = record_at(call->bytes, i);
        if (r.len && r.pos < first)
            first = r.pos;
        if (r.len && r.pos + r.len > end)
            end = r.pos + r.len;
    }
    size_t added = end ? EZK_RECORD : 0;
    must(call, a->value[1] == added + kept, "the new list has another length");
    must(call, !kept || !memcmp(a->written[1] + added, call->bytes + k * EZK_RECORD, kept),
         "the remaining records changed");
    if (!end) {
        must(call, a->value[0] == 0, "a plan that copies nothing");
        return;
    }
    record r = record_at(a->written[1], 0);
    must(call,
         r.pos == first && r.id == call->number[3] && r.size == end - first && r.off == 0 &&
             r.len == r.size,
         "another new record");
    struct call reading = other(call, READ_PLAN, call->bytes, k * EZK_RECORD);
    const uint64_t number[] = {index, EZK_CHUNK, block_size, first, end - first};
    memcpy(reading.number, number, sizeof number);
    answer plan = make_ample(&reading);
    must(call, same(&plan, a->written[0], a->value[0]), "the plan is not that of the read");
    done_with(&plan);
}
