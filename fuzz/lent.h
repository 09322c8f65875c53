/*
 * Memory lent to a call. Every byte of it and around it is known before the call, so that
 * a changed byte is seen afterwards.
 */
#ifndef LENT_H
#define LENT_H

#include <stddef.h>
#include <stdint.h>

/*
 * Where lent bytes stand. The archive is not built with the address sanitizer, which sees
 * only its calls of memcpy; a page without access stops every stray read and write.
 */
enum place {
    HEAP,          /* malloc'ed exactly, between guard bytes that are poisoned during the call */
    BEFORE_PAGE,   /* the byte behind the last one stands in a page without access */
    AFTER_PAGE,    /* the byte in front of the first one stands in such a page */
    NULL_IF_EMPTY, /* NULL for length 0, else as BEFORE_PAGE */
    PLACES
};

enum { ARENAS = 3, LENT_MAX = 1 << 20 };

typedef struct lent {
    uint8_t *bytes; /* what the call is given, good for len bytes */
    size_t len;
    uint8_t *all; /* guard bytes in front, the lent bytes, guard bytes behind */
    size_t front, back;
    const uint8_t *known; /* what all of it holds before the call */
    const uint8_t *content;
    uint8_t *heap;
} lent;

/* Lends len bytes; they hold content unless it is NULL. One buffer per arena at a time. */
lent lend(unsigned arena, enum place place, uint8_t salt, const uint8_t *content, size_t len);

/* Ends the access of the call; NULL if only the first `written` bytes may have changed. */
const char *changed(const lent *lent, size_t written);

void give_back(lent *lent);

#endif
