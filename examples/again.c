/* Feeds a view back as a list: it reads alike, but its holes have become zeros. */
#include <string.h>

#include "records.h"

enum { LENGTH = 8, BLOCK = 65536, ROOM = 9 };

/* pos, id, size, off, len: eight bytes of slice 9; and two of slice 10, at position 4. */
static const uint8_t older[EZK_RECORD] = {
    0, 0, 0, 0,  0, 0, 0, 0, 0, 0, 0, 9,  0, 0, 0, 8,  0, 0, 0, 0,  0, 0, 0, 8,
};
static const uint8_t newer[EZK_RECORD] = {
    0, 0, 0, 4,  0, 0, 0, 0, 0, 0, 0, 10,  0, 0, 0, 2,  0, 0, 0, 0,  0, 0, 0, 2,
};

/* How many bytes a call wrote. */
static size_t written(ezk_answer a)
{
    passed(a.refusal, a.place);
    return a.count;
}

static size_t view(const uint8_t *list, size_t len, uint8_t *out)
{
    return written(ezk_view(list, len, LENGTH, out, ROOM * EZK_RECORD));
}

static void print(const char *title, const uint8_t *records, size_t len)
{
    puts(title);
    print_records(records, len);
}

/* What is seen where this list is laid over the older one. */
static void over_older(const char *title, const uint8_t *list, size_t len)
{
    uint8_t both[ROOM * EZK_RECORD], seen[ROOM * EZK_RECORD];
    memcpy(both, older, EZK_RECORD);
    memcpy(both + EZK_RECORD, list, len);
    print(title, seen, view(both, EZK_RECORD + len, seen));
}

/* The list that is left once all of its records are compacted into slice 11. */
static void compacted(const char *title, const uint8_t *list, size_t len)
{
    uint8_t plan[ROOM * EZK_PIECE], new_list[EZK_RECORD];
    ezk_compacted c = ezk_compact(list, len, 0, BLOCK, len / EZK_RECORD, 11, plan, sizeof plan,
                                  new_list, sizeof new_list);
    passed(c.refusal, c.place);
    print(title, new_list, c.list);
}

int main(void)
{
    uint8_t first[ROOM * EZK_RECORD], again[ROOM * EZK_RECORD], tidied[ROOM * EZK_RECORD];
    size_t first_len = view(newer, EZK_RECORD, first);
    size_t again_len = view(first, first_len, again);
    size_t tidied_len = written(ezk_tidy(newer, EZK_RECORD, tidied, sizeof tidied));
    print("the view of the list:", first, first_len);
    print("the view of that view:", again, again_len);

    uint8_t plans[2][ROOM * EZK_PIECE] = {{0}};
    written(ezk_read_plan(newer, EZK_RECORD, 0, LENGTH, BLOCK, 0, LENGTH, plans[0],
                          sizeof *plans));
    written(ezk_read_plan(first, first_len, 0, LENGTH, BLOCK, 0, LENGTH, plans[1],
                          sizeof *plans));
    puts(memcmp(plans[0], plans[1], sizeof *plans) ? "read by other plans" : "read by one plan");

    over_older("the list over slice 9:", newer, EZK_RECORD);
    over_older("the tidied list over slice 9:", tidied, tidied_len);
    over_older("the view over slice 9:", first, first_len);
    compacted("the list compacted:", newer, EZK_RECORD);
    compacted("the view compacted:", first, first_len);
    return 0;
}
