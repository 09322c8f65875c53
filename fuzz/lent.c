#include "lent.h"

#include <sanitizer/asan_interface.h>
#include <stdlib.h>
#include <string.h>
#include <sys/mman.h>
#include <unistd.h>

enum { GUARD = 64, SALTS = 256 };

/* Bytes with period 256: every salt gives another row of them. */
static const uint8_t *known_bytes(uint8_t salt)
{
    static uint8_t known[LENT_MAX + 3 * GUARD + SALTS];
    if (known[0] == 0)
        for (size_t i = 0; i < sizeof known; i++)
            known[i] = (uint8_t)(i * 151 + 29);
    return known + salt;
}

/* LENT_MAX bytes and a guard, with a page without access on both sides. */
static uint8_t *arena_start(unsigned arena)
{
    static uint8_t *starts[ARENAS];
    if (!starts[arena]) {
        size_t page = (size_t)sysconf(_SC_PAGESIZE);
        size_t inner = LENT_MAX + page;
        uint8_t *all = mmap(NULL, inner + 2 * page, PROT_NONE, MAP_PRIVATE | MAP_ANONYMOUS, -1, 0);
        if (all == MAP_FAILED || mprotect(all + page, inner, PROT_READ | PROT_WRITE))
            abort();
        starts[arena] = all + page;
    }
    return starts[arena];
}

static void choose_place(lent *lent, unsigned arena, enum place place, uint8_t salt)
{
    if (place == HEAP) {
        lent->front = GUARD + salt % 16; /* any alignment */
        lent->back = GUARD;
        lent->heap = malloc(lent->front + lent->len + lent->back);
        if (!lent->heap)
            abort();
        lent->all = lent->heap;
    } else if (place == AFTER_PAGE) {
        lent->back = GUARD;
        lent->all = arena_start(arena);
    } else {
        lent->front = GUARD;
        lent->all = arena_start(arena) + LENT_MAX + sysconf(_SC_PAGESIZE) - lent->len - GUARD;
    }
}

lent lend(unsigned arena, enum place place, uint8_t salt, const uint8_t *content, size_t len)
{
    lent lent = {.len = len, .content = content, .known = known_bytes(salt)};
    if (arena >= ARENAS || len > LENT_MAX)
        abort();
    choose_place(&lent, arena, place, salt);
    memcpy(lent.all, lent.known, lent.front + len + lent.back);
    lent.bytes = lent.all + lent.front;
    if (content && len)
        memcpy(lent.bytes, content, len);
    ASAN_POISON_MEMORY_REGION(lent.all, lent.front);
    ASAN_POISON_MEMORY_REGION(lent.bytes + len, lent.back);
    if (place == NULL_IF_EMPTY && len == 0)
        lent.bytes = NULL;
    return lent;
}

const char *changed(const lent *lent, size_t written)
{
    size_t front = lent->front, len = lent->len;
    const uint8_t *bytes = lent->all + front;
    const uint8_t *before = lent->content ? lent->content : lent->known + front;
    ASAN_UNPOISON_MEMORY_REGION(lent->all, front + len + lent->back);
    if (memcmp(lent->all, lent->known, front))
        return "a byte in front of a lent buffer changed";
    if (memcmp(bytes + len, lent->known + front + len, lent->back))
        return "a byte behind a lent buffer changed";
    if (written > len)
        return "more bytes counted than lent";
    if (len > written && memcmp(bytes + written, before + written, len - written))
        return "a byte of a lent buffer changed that no answer covers";
    return NULL;
}

void give_back(lent *lent)
{
    free(lent->heap);
    lent->heap = NULL;
}
