/* Pieces one at a time, beside the whole plan. */
#include "laws.h"

#include <string.h>

/* A plan may have thousands of pieces: so many are handed out from place 0 on. */
enum { STEPS = 24 };

/* Where these stand among the values; the piece stands behind them. */
enum { FINISHED, NEXT };

/* The piece that has this byte of the read, or NULL behind the last one. */
static const uint8_t *piece_over(const answer *plan, uint64_t at)
{
    for (size_t i = 0; i < plan->value[0] / EZK_PIECE; i++) {
        piece p = piece_at(plan->written[0], i);
        if (p.place <= at && at - p.place < p.len)
            return plan->written[0] + i * EZK_PIECE;
    }
    return NULL;
}

/* The rest of the piece in which the place lies, with the piece's end as next; or finished. */
static void rest_law(const call *call, const answer *plan, const answer *a)
{
    uint64_t at = call->number[PLACE], expected[VALUES] = {1, at};
    const uint8_t *bytes = piece_over(plan, at);
    if (bytes) {
        piece p = piece_at(bytes, 0);
        uint64_t done = at - p.place, left = p.len - done;
        const uint64_t rest[VALUES] = {0,       at + left,   be(bytes, 2),
                                       p.index, at,          p.id,
                                       p.block, p.block_len, p.object ? p.in_block + done : 0,
                                       left};
        memcpy(expected, rest, sizeof rest);
    }
    must(call, !memcmp(a->value, expected, sizeof expected),
         bytes ? "another piece than the whole plan's" : "behind the read it is not finished");
}

/* A refusal is that of the whole plan, also where the place is behind the read. */
static void place_law(const call *call, const answer *plan, const answer *a)
{
    must(call, a->refusal == plan->refusal, "refused otherwise than the whole plan");
    must(call, a->place == plan->place && a->index == plan->index,
         "another place or list than with the whole plan");
    if (!a->refusal)
        rest_law(call, plan, a);
}

/* The same call at another place. */
static answer step_from(const call *call, const answer *plan, uint64_t at)
{
    struct call step = *call;
    step.number[PLACE] = at;
    answer a = make_ample(&step);
    place_law(&step, plan, &a);
    return a;
}

/* From place 0 on they are the pieces of the plan, one after the other; then it is finished. */
static void one_by_one(const call *call, const answer *plan)
{
    size_t pieces = plan->value[0] / EZK_PIECE;
    uint64_t at = 0;
    for (size_t i = 0; i <= pieces && i < STEPS; i++) {
        const uint8_t *bytes = i < pieces ? plan->written[0] + i * EZK_PIECE : NULL;
        must(call, piece_over(plan, at) == bytes, "a piece is left out, or comes again");
        answer a = step_from(call, plan, at);
        must(call, a.refusal || a.value[FINISHED] == (i == pieces), "finished at another piece");
        at = a.value[NEXT];
        done_with(&a);
    }
}

/* Somewhere in the read, before its end, and finished from there on. */
static void at_some(const call *call, const answer *plan)
{
    uint64_t bytes = on_file(call->kind) ? file_read(call) : chunk_read(call);
    const uint64_t places[] = {bytes * call->salt / 256, bytes ? bytes - 1 : 0, bytes,
                               bytes + 1 + call->salt, UINT64_MAX};
    for (size_t i = 0; i < sizeof places / sizeof *places; i++) {
        answer a = step_from(call, plan, places[i]);
        must(call, a.refusal || a.value[FINISHED] == (places[i] >= bytes),
             "another end than the read's");
        done_with(&a);
    }
}

void next_law(const call *call, const answer *a)
{
    answer plan = whole_plan(call);
    place_law(call, &plan, a);
    one_by_one(call, &plan);
    at_some(call, &plan);
    done_with(&plan);
}
