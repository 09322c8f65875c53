#include "pass.h"

#include <stdlib.h>
#include <string.h>

static answer answered(ezk_answer a)
{
    return (answer){.refusal = a.refusal, .place = a.place, .value = {a.count}};
}

static answer filed(ezk_file_answer a)
{
    return (answer){
        .refusal = a.refusal, .place = a.place, .index = a.index, .value = {a.count}};
}

static answer sought(ezk_found a)
{
    return (answer){.refusal = a.refusal,
                    .place = a.place,
                    .value = {a.found, a.segment, a.pos, a.id, a.size, a.off, a.len}};
}

/* Both structs have the same fields but for the index of a refused list. */
#define STEPPED(a)                                                                               \
    {(a).finished, (a).next, (a).mark, (a).index, (a).at, (a).id, (a).block, (a).block_len,      \
     (a).in_block, (a).len}

static answer stepped(ezk_next a)
{
    return (answer){.refusal = a.refusal, .place = a.place, .value = STEPPED(a)};
}

static answer stepped_file(ezk_file_next a)
{
    return (answer){.refusal = a.refusal,
                    .place = a.place,
                    .index = a.list_index,
                    .value = STEPPED(a)};
}

static answer judged(ezk_judged a)
{
    return (answer){
        .refusal = a.refusal, .place = a.place, .index = a.index, .value = {a.verdict, a.at}};
}

static answer compacted(ezk_compacted a)
{
    return (answer){.refusal = a.refusal, .place = a.place, .value = {a.plan, a.list}};
}

static answer part(ezk_part a)
{
    return (answer){
        .refusal = a.refusal, .place = a.place, .value = {a.rewritten, a.offset, a.length}};
}

static answer object(ezk_object a)
{
    return (answer){
        .refusal = a.refusal, .place = a.place, .value = {a.id, a.block, a.length, a.volume}};
}

static answer chunk_key(ezk_chunk_key a)
{
    return (answer){.refusal = a.refusal, .place = a.place, .value = {a.inode, a.index}};
}

static int starts_with(const uint8_t *list, size_t len, const uint8_t *front, size_t front_len)
{
    return front_len <= len && (!front_len || !memcmp(list, front, front_len));
}

int begins(const call *call)
{
    return starts_with(call->bytes, call->len, call->older, call->older_len);
}

static answer pass_one(const call *call, const lent *in, const lent out[2])
{
    const uint64_t *n = call->number;
    uint8_t *to = out[0].bytes;
    size_t room = out[0].len;
    switch (call->kind) {
    case CHECK:
        return answered(ezk_check(in->bytes, in->len));
    case VIEW:
        return answered(ezk_view(in->bytes, in->len, n[0], to, room));
    case FIND:
        return sought(ezk_find(in->bytes, in->len, n[0], n[1]));
    case TIDY:
        return answered(ezk_tidy(in->bytes, in->len, to, room));
    case READ_PLAN:
        return answered(ezk_read_plan(in->bytes, in->len, n[0], n[1], n[2], n[3], n[4], to, room));
    case COMPACT:
        return compacted(ezk_compact(in->bytes, in->len, n[0], n[1], n[2], n[3], to, room,
                                     out[1].bytes, out[1].len));
    case WRITE_OBJECT_NAME:
        return answered(ezk_write_object_name(n[0], n[1], n[2], to, room));
    case WRITE_FULL_NAME:
        return answered(ezk_write_full_name(in->bytes, in->len, n[0], n[1], n[2], to, room));
    case READ_OBJECT_NAME:
        return object(ezk_read_object_name(in->bytes, in->len));
    case READ_FULL_NAME:
        return object(ezk_read_full_name(in->bytes, in->len));
    case WRITE_REDIS_KEY:
        return answered(ezk_write_redis_key(n[0], n[1], to, room));
    case WRITE_TKV_KEY:
        return answered(ezk_write_tkv_key(n[0], n[1], to, room));
    case READ_REDIS_KEY:
        return chunk_key(ezk_read_redis_key(in->bytes, in->len));
    case READ_TKV_KEY:
        return chunk_key(ezk_read_tkv_key(in->bytes, in->len));
    default:
        abort();
    }
}

/* Both lists may be read in one memory: for some salts they are, where one begins the other. */
static answer pass_two(const call *call, const lent *newer)
{
    lent older = lend(1, call->places / PLACES % PLACES, (uint8_t)(call->salt + 1), call->older,
                      call->older_len);
    const uint8_t *from = older.bytes, *to = newer->bytes;
    int together = call->salt % 4 == 0;
    if (together && begins(call))
        from = to;
    else if (together && starts_with(call->older, call->older_len, call->bytes, call->len))
        to = from;
    answer a = part(ezk_added(from, older.len, to, newer->len));
    must(call, !changed(&older, 0), "a byte in or beside the older list changed");
    give_back(&older);
    return a;
}

static answer pass_next(const call *call, const lent *list)
{
    const uint64_t *n = call->number;
    return stepped(
        ezk_next_piece(list->bytes, list->len, n[0], n[1], n[2], n[3], n[4], n[PLACE]));
}

static answer pass_plan(const call *call, const lent *lists, const uint64_t *lengths)
{
    const uint64_t *n = call->number;
    lent plan = lend(1, call->places / PLACES % PLACES, (uint8_t)(call->salt + 1), call->plan,
                     call->plan_len);
    answer a = judged(ezk_judge_plan(lists->bytes, lists->len, lengths, call->lists, n[0], n[1],
                                     n[2], n[3], n[4], plan.bytes, plan.len));
    must(call, !changed(&plan, 0), "a byte in or beside the plan changed");
    give_back(&plan);
    return a;
}

/* The lengths stand where numbers may: aligned, as the salt then says. */
static answer pass_file(const call *call, const lent *lists, const lent *out)
{
    const uint64_t *n = call->number;
    lent lengths = lend(2, call->places / PLACES / PLACES % PLACES, call->salt & 0xf8,
                        (const uint8_t *)call->lengths, call->lists * sizeof *call->lengths);
    const uint64_t *numbers = (const void *)lengths.bytes;
    answer a;
    if (call->kind == FILE_PLAN)
        a = filed(ezk_file_plan(lists->bytes, lists->len, numbers, call->lists, n[0], n[1], n[2],
                                n[3], n[4], out->bytes, out->len));
    else if (call->kind == JUDGE_PLAN)
        a = pass_plan(call, lists, numbers);
    else
        a = stepped_file(ezk_next_file_piece(lists->bytes, lists->len, numbers, call->lists, n[0],
                                             n[1], n[2], n[3], n[4], n[PLACE]));
    must(call, !changed(&lengths, 0), "a byte in or beside the lengths changed");
    give_back(&lengths);
    return a;
}

answer pass(const call *call, const lent *in, const lent out[2])
{
    switch (call->kind) {
    case FILE_PLAN:
    case NEXT_FILE_PIECE:
    case JUDGE_PLAN:
        return pass_file(call, in, out);
    case NEXT_PIECE:
        return pass_next(call, in);
    case ADDED:
        return pass_two(call, in);
    default:
        return pass_one(call, in, out);
    }
}
