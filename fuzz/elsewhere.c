/* The plan of a call of JUDGE_PLAN: any bytes, or our own plan, changed a few times. */
#include "shape.h"

#include <string.h>

#include "input.h"
#include "laws.h"
#include "pieces.h"

/* As they are, the last bytes are the plan. */
static void take_plan(call *call, uint8_t *bytes)
{
    call->plan_len = call->number[CHANGES] % (call->len + 1);
    call->len -= call->plan_len;
    memcpy(bytes, call->bytes + call->len, call->plan_len);
}

/* What is done to a plan. The last two leave a piece cut short, or whole ones. */
enum { EXCHANGE, LEAVE_OUT, ADD_AGAIN, CUT, FLIP, SHUFFLE, SHORTEN, LENGTHEN, WAYS };

/* How many changes are made at most, and the bits that choose one. */
enum { CHANGES_MAX = 3, CHANGE_BITS = 20 };

/* Of a plan with a whole piece: `which` says the piece, and `more` what else there is to say. */
static void change_piece(plan *plan, uint64_t way, size_t which, uint64_t more)
{
    uint64_t len = be(nth(plan, which) + LEN_AT, 4);
    switch (way) {
    case EXCHANGE:
        exchange(plan, which, more % pieces(plan));
        return;
    case LEAVE_OUT:
        leave_out(plan, which);
        return;
    case ADD_AGAIN:
        add_again(plan, which);
        return;
    case CUT:
        if (len > 1)
            cut_in_two(plan, which, 1 + more % (len - 1));
        return;
    case FLIP:
        nth(plan, which)[more % EZK_PIECE] ^= (uint8_t)(1 << more / EZK_PIECE % 8);
        return;
    default:
        shuffle(plan, more);
    }
}

static void change(plan *plan, uint64_t choice)
{
    uint64_t way = choice % WAYS, more = choice / WAYS, bytes = 1 + more % (2 * EZK_PIECE);
    if (way == SHORTEN) {
        plan->len -= bytes < plan->len ? bytes : plan->len;
    } else if (way == LENGTHEN) {
        memset(plan->bytes + plan->len, 'R', bytes);
        plan->len += bytes;
    } else if (pieces(plan)) {
        change_piece(plan, way, more % pieces(plan), more / pieces(plan));
    }
}

/* A refused read has no plan of ours: then any bytes are judged. */
static void change_ours(call *call, uint8_t *bytes)
{
    answer ours = whole_plan(call);
    plan plan = {bytes, ours.refusal ? call->len : ours.value[0]};
    memcpy(bytes, ours.refusal ? call->bytes : ours.written[0], plan.len);
    uint64_t choice = call->number[CHANGES], left = choice % (CHANGES_MAX + 1);
    for (choice /= CHANGES_MAX + 1; left > 0; left--, choice >>= CHANGE_BITS)
        change(&plan, choice % (1 << CHANGE_BITS));
    call->plan_len = plan.len;
    done_with(&ours);
}

void give_plan(call *call, uint8_t choice)
{
    static uint8_t bytes[PLAN_MAX];
    call->plan = bytes;
    if (choice % SHAPES == AS_IS)
        take_plan(call, bytes);
    else
        change_ours(call, bytes);
}
