/* A file of which two chunks are read: by one plan, piece by piece, and by plans made elsewhere. */
#include "records.h"

enum { MIB = 1 << 20, BLOCK = 4 * MIB, FIRST = 2, LISTS = 2, RECORDS = 3 };

/* A read of 8 MiB, which starts 61 MiB into chunk 2. */
enum { START = 61 * MIB, COUNT = 8 * MIB };

/* The file ends 2.5 MiB into chunk 3. */
static const uint64_t file_len = 3 * (uint64_t)EZK_CHUNK + 5 * MIB / 2;

/* pos, id, size, off, len: one record of chunk 2, then two of chunk 3. */
static const uint64_t records[RECORDS][5] = {{58 * MIB, 21, 5 * MIB, 0, 5 * MIB},
                                             {1 * MIB, 22, 2 * MIB, 0, 2 * MIB},
                                             {2 * MIB, 0, 0, 0, MIB / 4}};
static const uint64_t lengths[LISTS] = {1 * EZK_RECORD, 2 * EZK_RECORD};

/* The two lists, one behind the other. */
static inline void put_lists(uint8_t lists[RECORDS * EZK_RECORD])
{
    for (int i = 0; i < RECORDS; i++)
        lists = put_record(lists, records[i]);
}

/* Damages the second list: its zeros have an off. */
static inline void damage(uint8_t lists[RECORDS * EZK_RECORD])
{
    lists[2 * EZK_RECORD + 19] = 1;
}

static inline void print_refusal(uint64_t refusal, uint64_t place, uint64_t index)
{
    printf("refused %" PRIu64 " at %" PRIu64 " in the list of chunk %" PRIu64 "\n", refusal,
           place, index);
}
