/* Seeks in a view: it is made once, and tells for any position where the byte comes from. */
#include "records.h"

enum { LENGTH = 24 };

/* pos, id, size, off, len: slice 7 of 20 bytes, and eight zeros over its bytes from 4 on. */
static const uint8_t list[2 * EZK_RECORD] = {
    0, 0, 0, 0,  0, 0, 0, 0, 0, 0, 0, 7,  0, 0, 0, 20,  0, 0, 0, 0,  0, 0, 0, 20,
    0, 0, 0, 4,  0, 0, 0, 0, 0, 0, 0, 0,  0, 0, 0, 0,  0, 0, 0, 0,  0, 0, 0, 8,
};

/* What stands at a position of the view. */
static void seek(const uint8_t *view, size_t view_len, uint64_t segments, uint64_t position)
{
    ezk_found f = ezk_find(view, view_len, segments, position);
    passed(f.refusal, f.place);
    printf("%" PRIu64 ": ", position);
    if (!f.found) {
        puts("none");
        return;
    }
    printf("segment %" PRIu64 ", ", f.segment);
    if (f.id)
        printf("slice %" PRIu64 " at %" PRIu64 "\n", f.id, f.off + (position - f.pos));
    else
        puts(f.size ? "uncovered" : "zeros");
}

int main(void)
{
    static const uint64_t positions[] = {0, 3, 4, 11, 12, 19, 20, 23, 24};
    uint8_t view[5 * EZK_RECORD]; /* two records: at most five segments */
    ezk_answer a = ezk_view(list, sizeof list, LENGTH, view, sizeof view);
    passed(a.refusal, a.place);
    uint64_t segments = a.count / EZK_RECORD;
    for (size_t i = 0; i < sizeof positions / sizeof *positions; i++)
        seek(view, sizeof view, segments, positions[i]);
    return 0;
}
