/* A tablet reads a file piece by piece. It has no room for a plan: it keeps the place alone. */
#include "two_chunks.h"

/* What is kept while the tablet is off: the eight bytes of the place. */
static FILE *kept;

static void keep(uint64_t place)
{
    rewind(kept);
    if (fwrite(&place, sizeof place, 1, kept) != 1)
        exit(1);
}

static uint64_t kept_place(void)
{
    uint64_t place;
    rewind(kept);
    if (fread(&place, sizeof place, 1, kept) != 1)
        exit(1);
    return place;
}

static void print_piece(const ezk_file_next *p)
{
    printf("%c%c %" PRIu64 " %" PRIu64 " %" PRIu64 " %" PRIu64 " %" PRIu64 " %" PRIu64 " %" PRIu64
           "\n",
           (int)(p->mark >> 8), (int)(p->mark & 255), p->index, p->at, p->id, p->block,
           p->block_len, p->in_block, p->len);
}

/* Goes on from the place that was kept, until this many bytes of the read have arrived. */
static void turn_on(const uint8_t *lists, size_t lists_len, uint64_t until)
{
    uint64_t at = kept_place();
    printf("on at %" PRIu64 "\n", at);
    while (at < until) {
        ezk_file_next p = ezk_next_file_piece(lists, lists_len, lengths, LISTS, FIRST, file_len,
                                              BLOCK, START, COUNT, at);
        if (p.refusal) {
            print_refusal(p.refusal, p.place, p.list_index);
            return;
        }
        if (p.finished) {
            puts("finished");
            return;
        }
        print_piece(&p);
        at = p.next < until ? p.next : until; /* switched off inside a piece */
        keep(at);
    }
}

int main(void)
{
    uint8_t lists[RECORDS * EZK_RECORD];
    put_lists(lists);
    kept = tmpfile();
    if (!kept)
        return 1;
    keep(0);
    turn_on(lists, sizeof lists, 4 * MIB + MIB / 2);
    turn_on(lists, sizeof lists, UINT64_MAX);
    turn_on(lists, sizeof lists, UINT64_MAX);
    damage(lists);
    turn_on(lists, sizeof lists, UINT64_MAX);
    return 0;
}
