/* Neighbours that may be exchanged. */
#include "laws.h"

#include <string.h>

static int share_a_byte(record a, record b)
{
    return a.len && b.len && a.pos < b.pos + b.len && b.pos < a.pos + a.len;
}

/* In one pass, some neighbours whose ranges share no byte, as the salt chooses. */
static void exchange(uint8_t *list, size_t records, uint8_t salt)
{
    for (size_t i = 0; i + 1 < records; i++) {
        record one = record_at(list, i), two = record_at(list, i + 1);
        if (salt >> i % 8 & 1 && !share_a_byte(one, two))
            put_record(put_record(list + i * EZK_RECORD, two), one);
    }
}

/* The order that is reached tidies to the same bytes. */
void exchange_law(const call *call, const answer *a)
{
    static uint8_t list[LIST_RECORDS * EZK_RECORD];
    memcpy(list, call->bytes, call->len);
    exchange(list, call->len / EZK_RECORD, call->salt);
    struct call tidying = other(call, TIDY, list, call->len);
    answer tidied = make_ample(&tidying);
    must(call, tidied.refusal == a->refusal, "refused in another order");
    if (!a->refusal)
        must(call, same(&tidied, a->written[0], a->value[0]), "another order, other bytes");
    done_with(&tidied);
}
