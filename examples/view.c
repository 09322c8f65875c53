/* Prints the resolved view of a list of three slices. */
#include "records.h"

/* pos, id, size, off, len: slices of 30, 16 and 10 MiB at 10, 20 and 16 MiB. */
static const uint8_t list[3 * EZK_RECORD] = {
    0x00, 0xa0, 0, 0,  0, 0, 0, 0, 0, 0, 0, 10,  0x01, 0xe0, 0, 0,  0, 0, 0, 0,  0x01, 0xe0, 0, 0,
    0x01, 0x40, 0, 0,  0, 0, 0, 0, 0, 0, 0, 11,  0x01, 0x00, 0, 0,  0, 0, 0, 0,  0x01, 0x00, 0, 0,
    0x01, 0x00, 0, 0,  0, 0, 0, 0, 0, 0, 0, 12,  0x00, 0xa0, 0, 0,  0, 0, 0, 0,  0x00, 0xa0, 0, 0,
};

int main(void)
{
    uint8_t view[7 * EZK_RECORD]; /* three records: at most seven runs */
    ezk_answer a = ezk_view(list, sizeof list, EZK_CHUNK, view, sizeof view);
    passed(a.refusal, a.place);
    puts("pos id size off len");
    print_records(view, a.count);
    return 0;
}
