/* The older list of a call of ADDED, made from the newer one. */
#include "shape.h"

#include <string.h>

#include "input.h"

/* As they are, the first bytes are the older list and the rest is the newer. */
static void divide(call *call, uint8_t *bytes, uint8_t *older)
{
    size_t cut = call->number[0] % (call->len + 1);
    memcpy(older, bytes, cut);
    memmove(bytes, bytes + cut, call->len - cut);
    call->older_len = cut;
    call->len -= cut;
}

/* How the two lists are made of one, in the bits of the last number. */
enum { NEWER_IS_SHORTER = 1, SPOIL_OLDER = 2, SPOIL_NEWER = 4 };

/* One of the two is the list, the other its first records; then either may be spoiled. */
static void shorten(call *call, uint8_t *bytes, uint8_t *older)
{
    const uint64_t *n = call->number;
    size_t kept = n[0] % (call->len / EZK_RECORD + 1) * EZK_RECORD;
    memcpy(older, bytes, call->len);
    call->older_len = n[3] & NEWER_IS_SHORTER ? call->len : kept;
    call->len = n[3] & NEWER_IS_SHORTER ? kept : call->len;
    if (n[3] & SPOIL_OLDER)
        spoil_records(older, &call->older_len, n[1]);
    if (n[3] & SPOIL_NEWER)
        spoil_records(bytes, &call->len, n[2]);
}

void give_older(call *call, uint8_t *bytes, uint8_t choice)
{
    static uint8_t older[LIST_MAX];
    call->older = older;
    if (choice % SHAPES == AS_IS)
        divide(call, bytes, older);
    else
        shorten(call, bytes, older);
}
