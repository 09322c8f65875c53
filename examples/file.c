/* Plans a read over the edge of two chunks of a file; then one of the two lists is damaged. */
#include "two_chunks.h"

enum { ROOM = 20 * EZK_PIECE };

static void plan_read(const uint8_t *lists, size_t lists_len)
{
    uint8_t plan[ROOM];
    ezk_file_answer a = ezk_file_plan(lists, lists_len, lengths, LISTS, FIRST, file_len, BLOCK,
                                      START, COUNT, plan, ROOM);
    if (a.refusal)
        print_refusal(a.refusal, a.place, a.index);
    for (const uint8_t *p = plan; p < plan + a.count; p += EZK_PIECE)
        printf("%.2s %" PRIu64 " %" PRIu64 " %" PRIu64 " %" PRIu64 " %" PRIu64 " %" PRIu64
               " %" PRIu64 "\n",
               (const char *)p, number(p + 2, 4), number(p + 6, 4), number(p + 10, 8),
               number(p + 18, 4), number(p + 22, 4), number(p + 26, 4), number(p + 30, 4));
}

int main(void)
{
    uint8_t lists[RECORDS * EZK_RECORD];
    put_lists(lists);
    plan_read(lists, sizeof lists);
    damage(lists);
    plan_read(lists, sizeof lists);
    return 0;
}
