#include "laws.h"

#include <string.h>

call other(const call *call, enum kind kind, const uint8_t *bytes, size_t len)
{
    return (struct call){
        .kind = kind, .bytes = bytes, .len = len, .places = call->places, .salt = call->salt};
}

int same(const answer *a, const uint8_t *bytes, size_t len)
{
    return a->refusal == 0 && a->value[0] == len && (!len || !memcmp(a->written[0], bytes, len));
}

answer whole_plan(const call *call)
{
    enum kind kind = on_file(call->kind) ? FILE_PLAN : READ_PLAN;
    struct call planning = other(call, kind, call->bytes, call->len);
    memcpy(planning.number, call->number, PLACE * sizeof *call->number);
    planning.lengths = call->lengths;
    planning.lists = call->lists;
    return make_ample(&planning);
}

/* Of these a refusal has laws too. */
static int refused_by_law(const call *call, const answer *a)
{
    return a->refusal == EZK_TIDIED_RECORDS || on_file(call->kind) || call->kind == NEXT_PIECE;
}

void keep_laws(const call *call, const answer *a)
{
    if (a->refusal && !refused_by_law(call, a))
        return;
    switch (call->kind) {
    case CHECK:
        return check_law(call, a);
    case VIEW:
        return view_law(call, a);
    case FIND:
        return find_law(call, a);
    case TIDY:
        tidy_law(call, a);
        return exchange_law(call, a);
    case READ_PLAN:
        return plan_law(call, a);
    case FILE_PLAN:
        return file_law(call, a);
    case NEXT_PIECE:
    case NEXT_FILE_PIECE:
        return next_law(call, a);
    case JUDGE_PLAN:
        return judge_law(call, a);
    case COMPACT:
        return compact_law(call, a);
    case ADDED:
        return added_law(call, a);
    default:
        return text_law(call, a);
    }
}
