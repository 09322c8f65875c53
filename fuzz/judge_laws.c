/* Judged plans: any plan beside our own, and our own cut, ordered and spoiled. */
#include "laws.h"

#include <stdlib.h>
#include <string.h>

#include "pieces.h"
#include "shape.h"

/* Of a plan with more pieces only other orders and one change more are tried. */
enum { FEW = 32 };

/* The values of an answer. */
enum { VERDICT, AT };

typedef struct verdict {
    uint64_t verdict, at;
} verdict;

/* The number of our piece that has this byte of the read; they ascend, without gaps. */
static size_t under(const plan *ours, uint64_t at)
{
    size_t first = 0, end = pieces(ours);
    while (end - first > 1) {
        size_t middle = first + (end - first) / 2;
        if (piece_at(ours->bytes, middle).place <= at)
            first = middle;
        else
            end = middle;
    }
    return first;
}

/* A piece is right exactly if it is a stretch of one of ours. */
static int wrong(const plan *ours, uint64_t read, const uint8_t *bytes)
{
    piece p = piece_at(bytes, 0);
    if (bytes[0] != 'R' || (bytes[1] != 'B' && bytes[1] != 'Z'))
        return 1;
    if (p.len == 0 || p.place + p.len > read)
        return 1;
    piece own = piece_at(ours->bytes, under(ours, p.place));
    uint64_t done = p.place - own.place;
    if (p.object != own.object || p.index != own.index || p.len > own.len - done)
        return 1;
    return p.id != own.id || p.block != own.block || p.block_len != own.block_len ||
           p.in_block != own.in_block + (own.object ? done : 0);
}

static int by_place(const void *a, const void *b)
{
    uint64_t x = be((const uint8_t *)a + PLACE_AT, 4), y = be((const uint8_t *)b + PLACE_AT, 4);
    return (x > y) - (x < y);
}

/* The first byte that is not in one piece. In order of their places, one starts where another
 * ends. */
static uint64_t not_once(const uint8_t *bytes, size_t len)
{
    uint8_t *sorted = malloc(len + 1);
    uint64_t end = 0;
    if (!sorted)
        abort();
    if (len)
        memcpy(sorted, bytes, len);
    qsort(sorted, len / EZK_PIECE, EZK_PIECE, by_place);
    for (size_t i = 0; i < len / EZK_PIECE; i++) {
        piece p = piece_at(sorted, i);
        if (p.place != end) {
            end = p.place < end ? p.place : end;
            break;
        }
        end += p.len;
    }
    free(sorted);
    return end;
}

/* What must be said of any plan, seen from ours. */
static verdict expected(const call *call, const plan *ours)
{
    uint64_t read = file_read(call), whole = call->plan_len / EZK_PIECE;
    for (uint64_t k = 0; k < whole; k++)
        if (wrong(ours, read, call->plan + k * EZK_PIECE))
            return (verdict){EZK_WRONG_PIECE, k};
    if (call->plan_len % EZK_PIECE)
        return (verdict){EZK_WRONG_PIECE, whole};
    uint64_t at = not_once(call->plan, call->plan_len);
    return at < read ? (verdict){EZK_WRONG_BYTE, at} : (verdict){EZK_ACCEPTED, 0};
}

/* The same read with another plan. */
static void said(const call *call, const plan *plan, verdict verdict, const char *what)
{
    struct call judging = *call;
    judging.plan = plan->bytes;
    judging.plan_len = plan->len;
    answer a = make_ample(&judging);
    must(&judging, a.value[VERDICT] == verdict.verdict && a.value[AT] == verdict.at, what);
    done_with(&a);
}

static const verdict accepted = {EZK_ACCEPTED, 0};

static void in_other_orders(const call *call, plan *plan, size_t k)
{
    reverse(plan);
    said(call, plan, accepted, "our plan in reverse is not accepted");
    shuffle(plan, k + call->salt);
    said(call, plan, accepted, "our plan in another order is not accepted");
}

static void in_two(const call *call, plan *plan, size_t k)
{
    uint64_t len = piece_at(plan->bytes, k).len;
    if (len < 2)
        return;
    cut_in_two(plan, k, 1 + call->salt % (len - 1));
    said(call, plan, accepted, "our plan with a piece cut in two is not accepted");
    shuffle(plan, call->salt);
    said(call, plan, accepted, "our plan cut and in another order is not accepted");
}

static void without_one(const call *call, plan *plan, size_t k)
{
    verdict missing = {EZK_WRONG_BYTE, piece_at(plan->bytes, k).place};
    leave_out(plan, k);
    said(call, plan, missing, "a piece left out is not told");
}

static void with_one_twice(const call *call, plan *plan, size_t k)
{
    verdict doubled = {EZK_WRONG_BYTE, piece_at(plan->bytes, k).place};
    add_again(plan, k);
    said(call, plan, doubled, "a piece that comes twice is not told");
}

static void with_more_bytes(const call *call, plan *plan, size_t k)
{
    verdict cut_short = {EZK_WRONG_PIECE, pieces(plan)};
    add_again(plan, k);
    plan->len -= 1 + call->salt % (EZK_PIECE - 1);
    said(call, plan, cut_short, "a piece cut short is not told");
}

/* One byte shorter, or longer. */
static void in_other_lengths(const call *call, plan *plan, size_t k)
{
    piece p = piece_at(plan->bytes, k);
    verdict missing = {EZK_WRONG_BYTE, p.place + p.len - 1}, longer = {EZK_WRONG_PIECE, k};
    put(nth(plan, k) + LEN_AT, p.len + 1, 4);
    said(call, plan, longer, "a piece that is too long is not told");
    put(nth(plan, k) + LEN_AT, p.len - 1, 4);
    said(call, plan, p.len == 1 ? longer : missing, "a piece that is too short is not told");
}

/* Zeros where an object is, or an object where nothing is. */
static void with_other_mark(const call *call, plan *plan, size_t k)
{
    nth(plan, k)[1] ^= 'B' ^ 'Z';
    said(call, plan, (verdict){EZK_WRONG_PIECE, k}, "the other mark is not told");
}

/* One byte of each number but of the place and the length, and one of the mark. */
static void with_other_numbers(const call *call, plan *plan, size_t k)
{
    const size_t ends[] = {0, INDEX_AT, PLACE_AT, ID_AT, BLOCK_AT, BLOCK_LEN_AT, IN_BLOCK_AT,
                           LEN_AT};
    for (size_t i = 0; i + 1 < sizeof ends / sizeof *ends; i++) {
        uint8_t *byte = nth(plan, k) + ends[i] + call->salt % (ends[i + 1] - ends[i]);
        uint8_t bit = (uint8_t)(1 << call->salt / 8 % 8);
        if (ends[i] == PLACE_AT)
            continue;
        *byte ^= bit;
        said(call, plan, (verdict){EZK_WRONG_PIECE, k}, "a wrong number or mark is not told");
        *byte ^= bit;
    }
}

/* Other orders come first. Each is given our plan, of at least one piece, and a piece's number. */
static void (*const changes[])(const call *call, plan *plan, size_t k) = {
    in_other_orders, in_two,           without_one,     with_one_twice,
    with_more_bytes, in_other_lengths, with_other_mark, with_other_numbers};
enum { WAYS = sizeof changes / sizeof *changes };

static void changed_law(const call *call, const plan *ours)
{
    static uint8_t bytes[PLAN_MAX];
    size_t count = pieces(ours), k = count * call->salt / 256;
    for (size_t way = 0; count && way < WAYS; way++) {
        plan plan = {bytes, ours->len};
        if (count > FEW && way && way != call->salt % WAYS)
            continue;
        memcpy(bytes, ours->bytes, ours->len);
        changes[way](call, &plan, k);
    }
}

/* The refusals are those of our plan, whatever the plan. */
void judge_law(const call *call, const answer *a)
{
    answer own = whole_plan(call);
    must(call, a->refusal == own.refusal && a->place == own.place && a->index == own.index,
         "refused otherwise than our own plan");
    must(call, (a->value[VERDICT] != 0) == !a->refusal, "a verdict beside a refusal, or neither");
    if (!a->refusal) {
        plan ours = {own.written[0], own.value[0]};
        verdict verdict = expected(call, &ours);
        must(call, a->value[VERDICT] == verdict.verdict && a->value[AT] == verdict.at,
             "another verdict than seen from our own plan");
        said(call, &ours, accepted, "our own plan is not accepted");
        changed_law(call, &ours);
    }
    done_with(&own);
}
