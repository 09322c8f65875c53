/* Lists and views. */
#include "laws.h"

#include <string.h>

/* Of a run of a view: as a record of a list it is zeros. */
static int uncovered(record r)
{
    return r.id == 0 && r.size != 0;
}

/* Runs that belong together must not stand apart. */
static int one_run(record a, record b)
{
    if (a.id == 0 || b.id == 0)
        return a.id == b.id && uncovered(a) == uncovered(b);
    return a.id == b.id && a.size == b.size && a.off + a.len == b.off;
}

void check_law(const call *call, const answer *a)
{
    must(call, a->value[0] == call->len / EZK_RECORD, "check counts other records");
}

/* As a list, a view is accepted unless it is too long; its own view has no holes. */
static void again_law(const call *call, const answer *a)
{
    struct call again = other(call, VIEW, a->written[0], a->value[0]);
    again.number[0] = call->number[0];
    answer view = make_ample(&again);
    int too_long = a->value[0] / EZK_RECORD > LIST_RECORDS;
    must(call, view.refusal == (too_long ? EZK_LIST_RECORDS : 0), "the view is no list");
    for (size_t i = 0; i < view.value[0] / EZK_RECORD; i++)
        must(call, !uncovered(record_at(view.written[0], i)), "a hole that is still open");
    done_with(&view);
}

void view_law(const call *call, const answer *a)
{
    size_t runs = a->value[0] / EZK_RECORD;
    uint64_t pos = 0;
    record before = {0};
    must(call, a->value[0] % EZK_RECORD == 0, "half a run");
    must(call, runs <= 2 * (call->len / EZK_RECORD) + 1, "more than 2n + 1 runs");
    for (size_t i = 0; i < runs; i++) {
        record r = record_at(a->written[0], i);
        must(call, r.len > 0 && r.pos == pos, "an empty run, or a gap");
        must(call, r.id || (r.off == 0 && (r.size == 0 || r.size == r.len)), "no such run");
        must(call, !r.id || r.off + r.len <= r.size, "a run past the end of its slice");
        must(call, i == 0 || !one_run(before, r), "a run that is not maximal");
        before = r;
        pos += r.len;
    }
    must(call, pos == call->number[0], "the runs do not end with the chunk");
    again_law(call, a);
    seek_in(call, a);

    struct call tidying = other(call, TIDY, call->bytes, call->len);
    answer tidied = make_ample(&tidying);
    if (tidied.refusal == 0) {
        struct call viewing = other(call, VIEW, tidied.written[0], tidied.value[0]);
        viewing.number[0] = call->number[0];
        answer view = make_ample(&viewing);
        must(call, same(&view, a->written[0], a->value[0]), "the tidied list has another view");
        done_with(&view);
    }
    done_with(&tidied);
}

/* The tidied list is the view of the chunk without uncovered runs; tidied again, it stays. */
void tidy_law(const call *call, const answer *a)
{
    struct call viewing = other(call, VIEW, call->bytes, call->len);
    viewing.number[0] = EZK_CHUNK;
    answer view = make_ample(&viewing);
    size_t covered = 0;
    for (size_t i = 0; i < view.value[0] / EZK_RECORD; i++) {
        if (uncovered(record_at(view.written[0], i)))
            continue;
        if (a->refusal == 0)
            must(call,
                 (covered + 1) * EZK_RECORD <= a->value[0] &&
                     !memcmp(a->written[0] + covered * EZK_RECORD, view.written[0] + i * EZK_RECORD,
                             EZK_RECORD),
                 "a run of the view is not in the tidied list");
        covered++;
    }
    must(call, (a->refusal == EZK_TIDIED_RECORDS) == (covered > TIDIED_RECORDS),
         "refused or answered at the wrong number of tidied records");
    done_with(&view);
    if (a->refusal)
        return;
    must(call, covered * EZK_RECORD == a->value[0], "the tidied list is too long");
    struct call again = other(call, TIDY, a->written[0], a->value[0]);
    answer twice = make_ample(&again);
    must(call, same(&twice, a->written[0], a->value[0]), "tidied again, the list changes");
    done_with(&twice);
}
