/*
 * The fuzzer's entry: takes an input apart into one call, makes it in ample room, then in a
 * room that the input chooses, and finds fault where an answer breaks what the header says.
 */
#include "call.h"
#include "input.h"
#include "shape.h"

#include <stdlib.h>
#include <string.h>

/* A room told by the length of the answer: right, one short, any shorter, longer. */
static size_t room(uint64_t choice, size_t answer)
{
    uint64_t more = choice / 4;
    switch (choice % 4) {
    case 0:
        return answer;
    case 1:
        return answer ? answer - 1 : 0;
    case 2:
        return more % (answer + 1);
    default:
        return answer + more % 128;
    }
}

/* The same call in other rooms: the same answer, or refusal 12 where it does not fit. */
static void in_other_rooms(const call *call, const answer *a, const uint8_t *choices)
{
    size_t rooms[2] = {0, 0};
    int fits = 1;
    for (unsigned i = 0; i < outputs(call->kind); i++) {
        rooms[i] = room(be(choices + 2 * i, 2), a->refusal ? 0 : a->value[i]);
        fits &= a->refusal || rooms[i] >= a->value[i];
    }
    answer b = make(call, rooms);
    must(call, b.refusal == (fits ? a->refusal : EZK_BUFFER), "another refusal in another room");
    must(call, b.place == a->place, "another place in another room");
    must(call, b.index == a->index, "another index in another room");
    if (fits)
        must(call, !memcmp(a->value, b.value, sizeof a->value), "other values in another room");
    for (unsigned i = 0; !b.refusal && i < outputs(call->kind); i++)
        must(call, !memcmp(a->written[i], b.written[i], a->value[i]),
             "other bytes in another room");
    done_with(&b);
}

int LLVMFuzzerInitialize(int *argc, char ***argv)
{
    (void)argc;
    (void)argv;
    return atexit(print_tally);
}

int LLVMFuzzerTestOneInput(const uint8_t *data, size_t size)
{
    static uint8_t bytes[VIEW_MAX];
    uint8_t head[BYTES] = {0};
    memcpy(head, data, size < BYTES ? size : BYTES);
    size_t len = size < BYTES ? 0 : size - BYTES;
    if (len > LIST_MAX)
        return -1; /* not worth keeping */
    if (len)
        memcpy(bytes, data + BYTES, len);

    call call = {.kind = head[KIND] % KINDS,
                 .bytes = bytes,
                 .len = len,
                 .places = head[STANDS],
                 .salt = head[SALT]};
    for (int i = 0; i < ARGUMENTS; i++)
        call.number[i] = be(head + NUMBERS + 8 * i, 8);
    if (on_file(call.kind))
        call.lists = head[JOINED] % (LISTS_MAX + 1);
    give_shape(&call, bytes, head[SHAPE]);
    if (call.kind == ADDED)
        give_older(&call, bytes, head[SHAPE]);
    if (on_file(call.kind))
        give_lengths(&call, bytes, head);
    if (call.kind == JUDGE_PLAN)
        give_plan(&call, head[SHAPE]);

    answer a = make_ample(&call);
    keep_laws(&call, &a);
    in_other_rooms(&call, &a, head + ROOMS);
    done_with(&a);
    return 0;
}
