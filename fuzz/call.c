#include "call.h"

#include <inttypes.h>
#include <stdio.h>
#include <stdlib.h>
#include <string.h>

#include "pass.h"

enum { TEXT_MAX = 160 };

#define BIT(number) (1u << (number))
#define LIST (BIT(1) | BIT(2) | BIT(3) | BIT(4) | BIT(5) | BIT(6) | BIT(16))

/* What each call may refuse with. */
static const struct {
    const char *name;
    unsigned outputs, refusals;
} kinds[KINDS] = {
    [CHECK] = {"check", 0, LIST},
    [VIEW] = {"view", 1, BIT(7) | LIST | BIT(12)},
    [FIND] = {"find", 0, BIT(1)},
    [TIDY] = {"tidy", 1, LIST | BIT(11) | BIT(12)},
    [READ_PLAN] = {"read_plan", 1, BIT(7) | BIT(21) | BIT(8) | LIST | BIT(12)},
    [FILE_PLAN] = {"file_plan", 1, BIT(21) | BIT(8) | LIST | BIT(12)},
    [NEXT_PIECE] = {"next_piece", 0, BIT(7) | BIT(21) | BIT(8) | LIST},
    [NEXT_FILE_PIECE] = {"next_file_piece", 0, BIT(21) | BIT(8) | LIST},
    [JUDGE_PLAN] = {"judge_plan", 0, BIT(21) | BIT(8) | LIST},
    [COMPACT] = {"compact", 2, BIT(21) | BIT(8) | LIST | BIT(10) | BIT(9) | BIT(12)},
    [ADDED] = {"added", 0, LIST},
    [WRITE_OBJECT_NAME] = {"write_object_name", 1, BIT(13) | BIT(12)},
    [WRITE_FULL_NAME] = {"write_full_name", 1, BIT(13) | BIT(12)},
    [READ_OBJECT_NAME] = {"read_object_name", 0, BIT(13)},
    [READ_FULL_NAME] = {"read_full_name", 0, BIT(13)},
    [WRITE_REDIS_KEY] = {"write_redis_key", 1, BIT(13) | BIT(12)},
    [WRITE_TKV_KEY] = {"write_tkv_key", 1, BIT(13) | BIT(12)},
    [READ_REDIS_KEY] = {"read_redis_key", 0, BIT(13)},
    [READ_TKV_KEY] = {"read_tkv_key", 0, BIT(13)},
};

static void print(const char *what, const uint8_t *bytes, size_t len)
{
    fprintf(stderr, "  %zu %s:", len, what);
    for (size_t i = 0; i < len && i < 10 * EZK_RECORD; i++)
        fprintf(stderr, "%s%02x", i % EZK_RECORD ? " " : "\n  ", bytes[i]);
    fprintf(stderr, "\n");
}

static void print_numbers(const char *what, const uint64_t *numbers, size_t count)
{
    fprintf(stderr, "  %zu %s:", count, what);
    for (size_t i = 0; i < count; i++)
        fprintf(stderr, " %" PRIu64, numbers[i]);
    fprintf(stderr, "\n");
}

_Noreturn void found(const call *call, const char *what)
{
    fprintf(stderr, "FOUND in %s: %s\n", name(call->kind), what);
    print_numbers("numbers", call->number, ARGUMENTS);
    print_numbers("lengths", call->lengths, call->lists);
    print("bytes", call->bytes, call->len);
    if (call->kind == ADDED)
        print("bytes of the older list", call->older, call->older_len);
    if (call->kind == JUDGE_PLAN)
        print("bytes of the plan", call->plan, call->plan_len);
    abort();
}

void must(const call *call, int holds, const char *what)
{
    if (!holds)
        found(call, what);
}

const char *name(enum kind kind)
{
    return kinds[kind].name;
}

unsigned outputs(enum kind kind)
{
    return kinds[kind].outputs;
}

int on_file(enum kind kind)
{
    return kind == FILE_PLAN || kind == NEXT_FILE_PIECE || kind == JUDGE_PLAN;
}

static void check_refusal(const call *call, const answer *a)
{
    uint64_t refusal = a->refusal;
    must(call, refusal < REFUSALS, "the refusal has no such number");
    must(call, !refusal || kinds[call->kind].refusals & BIT(refusal),
         "the call has no such refusal");
    for (int i = 0; i < VALUES; i++)
        must(call, !refusal || !a->value[i], "a refused call gives values");
    uint64_t place = 0, index = 0;
    uint64_t expected = expected_refusal(call, &place, &index);
    must(call, a->place == place, "another place than expected");
    must(call, a->index == index, "another index than expected");
    if (expected)
        must(call, refusal == expected, "another refusal than expected");
    else
        must(call, !refusal || (refusal >= 11 && refusal <= 13), "refused without a reason");
}

static uint8_t *copy(const uint8_t *bytes, size_t len)
{
    uint8_t *copy = malloc(len);
    if (len && !copy)
        abort();
    return len ? memcpy(copy, bytes, len) : copy;
}

answer make(const call *call, const size_t room[2])
{
    unsigned written = kinds[call->kind].outputs, places = call->places;
    lent in = lend(0, places % PLACES, call->salt, call->bytes, call->len);
    lent out[2] = {{0}, {0}};
    for (unsigned i = 0; i < written; i++) {
        places /= PLACES;
        out[i] = lend(1 + i, places % PLACES, (uint8_t)(call->salt + 1 + i), NULL, room[i]);
    }
    answer a = pass(call, &in, out);
    const char *what = changed(&in, 0);
    must(call, !what, "a byte in or beside the input changed");
    for (unsigned i = 0; i < written; i++) {
        what = changed(&out[i], a.refusal ? 0 : a.value[i]);
        must(call, !what, what);
        a.written[i] = copy(out[i].bytes, a.refusal ? 0 : a.value[i]);
        give_back(&out[i]);
    }
    give_back(&in);
    check_refusal(call, &a);
    tally(call->kind, &a);
    return a;
}

/* A run of slice bytes lies in at most two blocks more than it has whole ones. */
static size_t plan_room(size_t records, uint64_t block_size)
{
    size_t blocks = block_size < 65536 ? 0 : EZK_CHUNK / block_size;
    return EZK_PIECE * (blocks + 2 * (2 * records + 1));
}

uint64_t chunk_read(const call *call)
{
    uint64_t end = call->number[1], start = call->number[3], count = call->number[4];
    return start >= end ? 0 : count < end - start ? count : end - start;
}

uint64_t file_read(const call *call)
{
    uint64_t before = call->number[0] * EZK_CHUNK, all = call->lists * (uint64_t)EZK_CHUNK;
    uint64_t start = call->number[3], count = call->number[4], end = call->number[1];
    end = end < before ? 0 : end - before < all ? end - before : all;
    return start >= end ? 0 : count < end - start ? count : end - start;
}

/* As many pieces as the header says. */
static size_t file_room(const call *call, uint64_t block_size)
{
    size_t blocks = block_size < 65536 ? 0 : file_read(call) / block_size;
    return EZK_PIECE * (4 * (call->len / EZK_RECORD) + 2 * call->lists + blocks);
}

answer make_ample(const call *call)
{
    size_t records = call->len / EZK_RECORD;
    if (records > LIST_RECORDS)
        records = 0; /* refused */
    size_t room[2] = {TEXT_MAX, EZK_RECORD * (records + 1)};
    if (call->kind == VIEW || call->kind == TIDY)
        room[0] = EZK_RECORD * (2 * records + 1);
    if (call->kind == READ_PLAN)
        room[0] = plan_room(records, call->number[2]);
    if (call->kind == FILE_PLAN)
        room[0] = file_room(call, call->number[2]);
    if (call->kind == COMPACT)
        room[0] = plan_room(records, call->number[1]);
    answer a = make(call, room);
    must(call, a.refusal != EZK_BUFFER, "an answer longer than any can be");
    return a;
}

void done_with(answer *answer)
{
    free(answer->written[0]);
    free(answer->written[1]);
}
