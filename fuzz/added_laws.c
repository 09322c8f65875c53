/* What is new since last time. */
#include "laws.h"

#include <string.h>

/* The part is a list, of as many records as are left. */
static void accepted(const call *call, const uint8_t *part, size_t len)
{
    struct call checking = other(call, CHECK, part, len);
    answer a = make_ample(&checking);
    must(call, a.refusal == 0 && a.value[0] == len / EZK_RECORD, "the part is no list");
    done_with(&a);
}

/* What the older list is tidied to, with the part behind it, covers what the newer list does. */
static void covers_alike(const call *call, const uint8_t *part, size_t len)
{
    static uint8_t joined[LIST_RECORDS * EZK_RECORD];
    struct call older = other(call, TIDY, call->older, call->older_len);
    struct call newer = other(call, TIDY, call->bytes, call->len);
    answer old = make_ample(&older), new = make_ample(&newer);
    size_t front = old.value[0];
    if (!old.refusal && !new.refusal && front + len <= sizeof joined) {
        memcpy(joined, old.written[0], front);
        memcpy(joined + front, part, len);
        struct call both = other(call, TIDY, joined, front + len);
        answer a = make_ample(&both);
        must(call, same(&a, new.written[0], new.value[0]), "part over older list: other bytes");
        done_with(&a);
    }
    done_with(&old);
    done_with(&new);
}

void added_law(const call *call, const answer *a)
{
    uint64_t rewritten = a->value[0], offset = a->value[1], length = a->value[2];
    must(call, rewritten == !begins(call), "rewritten, or not, at the wrong lists");
    must(call, offset == (rewritten ? 0 : call->older_len), "the part starts elsewhere");
    must(call, offset + length == call->len, "the part does not end with the newer list");
    accepted(call, call->bytes + offset, length);
    if (!rewritten)
        covers_alike(call, call->bytes + offset, length);
}
