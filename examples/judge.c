/* Tablets made their own plans of a read over the edge of two chunks. Each is judged before use. */
#include <string.h>

#include "two_chunks.h"

enum { PIECES = 7, CUT = 4, EDGE = 2 };

/* Where these numbers, of 4 bytes, stand in a piece. */
enum { PLACE = 6, IN_BLOCK = 26, LENGTH = 30 };

static uint8_t lists[RECORDS * EZK_RECORD];

/* Our own plan, from which the tablets' plans are made here, and room for one piece more. */
static uint8_t ours[PIECES * EZK_PIECE], plan[(PIECES + 1) * EZK_PIECE];

static uint8_t *piece(int number)
{
    return plan + number * EZK_PIECE;
}

static void add(uint8_t *to, int n)
{
    uint64_t sum = number(to, 4) + (uint64_t)n;
    for (int i = 4; i-- > 0; sum >>= 8)
        to[i] = (uint8_t)sum;
}

static void judge(const char *name, int pieces)
{
    ezk_judged j = ezk_judge_plan(lists, sizeof lists, lengths, LISTS, FIRST, file_len, BLOCK,
                                  START, COUNT, plan, (size_t)pieces * EZK_PIECE);
    printf("%s: ", name);
    if (j.refusal)
        print_refusal(j.refusal, j.place, j.index);
    else if (j.verdict == EZK_ACCEPTED)
        puts("accepted");
    else if (j.verdict == EZK_WRONG_PIECE)
        printf("piece %" PRIu64 " is wrong\n", j.at);
    else
        printf("byte %" PRIu64 " is in no piece, or in more than one\n", j.at);
}

static void reversed(void)
{
    for (int i = 0; i < PIECES; i++)
        memcpy(piece(PIECES - 1 - i), ours + i * EZK_PIECE, EZK_PIECE);
    judge("in reverse", PIECES);
}

/* The second half stands at the end, half a MiB on in the read and in its block. */
static void halved(void)
{
    uint8_t *half = piece(PIECES);
    memcpy(plan, ours, sizeof ours);
    add(piece(CUT) + LENGTH, -MIB / 2);
    memcpy(half, piece(CUT), EZK_PIECE);
    add(half + PLACE, MIB / 2);
    add(half + IN_BLOCK, MIB / 2);
    judge("in halves", PIECES + 1);
    judge("without the second half", PIECES);
    memcpy(half, piece(0), EZK_PIECE);
    judge("with another piece twice", PIECES + 1);
}

/* One piece of zeros where there are two: it crosses the edge of the chunks. */
static void joined(void)
{
    memcpy(plan, ours, sizeof ours);
    add(piece(EDGE) + LENGTH, MIB);
    memmove(piece(EDGE + 1), piece(EDGE + 2), (PIECES - EDGE - 2) * EZK_PIECE);
    judge("with zeros over the edge", PIECES - 1);
}

int main(void)
{
    put_lists(lists);
    ezk_file_answer a = ezk_file_plan(lists, sizeof lists, lengths, LISTS, FIRST, file_len, BLOCK,
                                      START, COUNT, ours, sizeof ours);
    passed(a.refusal, a.place);
    reversed();
    halved();
    joined();
    damage(lists);
    judge("with a damaged list", 0);
    return 0;
}
