/* Reads a list again and again, and applies only what is new since the last time. */
#include <string.h>

#include "records.h"

enum { LENGTH = 12, ROOM = 3 * EZK_RECORD };

/* A record of small numbers: the whole of a slice, or zeros for id 0. */
#define RECORD(pos, id, len)                                                                     \
    0, 0, 0, pos,  0, 0, 0, 0, 0, 0, 0, id,  0, 0, 0, (id) ? (len) : 0,  0, 0, 0, 0,  0, 0, 0, len

/* The list as records are appended; and another in its place, which covers less. */
static const uint8_t before[ROOM] = {RECORD(0, 7, 6), RECORD(4, 8, 4), RECORD(2, 0, 2)};
static const uint8_t after[ROOM] = {RECORD(0, 9, 6), RECORD(2, 0, 2), RECORD(10, 5, 2)};

/* What the host knows: the list as it was last, and a sign for the source of each byte. */
typedef struct known {
    uint8_t list[ROOM];
    size_t len;
    char source[LENGTH + 1];
} known;

/* Lays records over what is known: 0 stands for zeros, another digit for a slice. */
static void lay_over(known *k, const uint8_t *records, size_t len)
{
    for (const uint8_t *r = records; r < records + len; r += EZK_RECORD)
        memset(k->source + number(r, 4), '0' + (int)number(r + 4, 8), number(r + 20, 4));
}

/* Takes the list as it is now. If it is refused, what is known stays. */
static void poll_list(known *k, const uint8_t *list, size_t len)
{
    ezk_part p = ezk_added(k->list, k->len, list, len);
    if (p.refusal) {
        /* Of the new list: the old one was accepted the last time. */
        printf("refused %" PRIu64 " at %" PRIu64 ": %s\n", p.refusal, p.place, k->source);
        return;
    }
    if (p.rewritten)
        memset(k->source, '.', LENGTH);
    lay_over(k, list + p.offset, p.length);
    memcpy(k->list, list, len);
    k->len = len;
    printf("%s %" PRIu64 ": %s\n", p.rewritten ? "rewritten" : "added", p.length / EZK_RECORD,
           k->source);
}

int main(void)
{
    known k = {{0}, 0, "............"};
    poll_list(&k, before, 1 * EZK_RECORD);
    poll_list(&k, before, 3 * EZK_RECORD);
    poll_list(&k, before, 3 * EZK_RECORD);
    poll_list(&k, after, 2 * EZK_RECORD);
    poll_list(&k, after, 3 * EZK_RECORD - 1);
    poll_list(&k, after, 3 * EZK_RECORD);
    return 0;
}
