/* Compacts the first records of a list, with a store of objects in memory. */
#include <string.h>

#include "records.h"

enum { INDEX = 5, BLOCK = 65536, LENGTH = 70200, ROOM = 20 * EZK_PIECE };
enum { OBJECTS = 6, NAME = 64 };

/* pos, id, size, off, len; the first three are compacted into slice 4. */
static const uint64_t records[4][5] = {
    {100, 1, 70000, 50, 69950}, {110, 0, 0, 0, 5}, {70040, 2, 20, 0, 20}, {98, 3, 4, 0, 4}};

static struct {
    char name[NAME];
    uint8_t bytes[BLOCK];
} store[OBJECTS];

/* The bytes of the object with this name; it is made where it is missing. */
static uint8_t *object(uint64_t id, uint64_t block, uint64_t length)
{
    char name[NAME] = "";
    ezk_answer a = ezk_write_object_name(id, block, length, (uint8_t *)name, NAME - 1);
    passed(a.refusal, a.place);
    for (int i = 0; i < OBJECTS; i++) {
        if (!store[i].name[0])
            memcpy(store[i].name, name, NAME);
        if (!strcmp(store[i].name, name))
            return store[i].bytes;
    }
    exit(1);
}

/* Where the byte at an offset of a slice is stored. */
static uint8_t *slice_byte(uint64_t id, uint64_t size, uint64_t offset)
{
    uint64_t block = offset / BLOCK, left = size - block * BLOCK;
    return object(id, block, left < BLOCK ? left : BLOCK) + offset % BLOCK;
}

static uint8_t piece_byte(const uint8_t *piece, uint64_t j)
{
    if (piece[1] == 'Z')
        return 0;
    return object(number(piece + 10, 8), number(piece + 18, 4),
                  number(piece + 22, 4))[number(piece + 26, 4) + j];
}

/* Reads the first LENGTH bytes of the chunk, and prints some of them. */
static void read_chunk(const char *what, const uint8_t *list, size_t len, uint8_t *bytes)
{
    static const int some[] = {97, 98, 101, 102, 110, 115, 65586, 65636, 70039, 70040, 70060};
    uint8_t plan[ROOM];
    ezk_answer a = ezk_read_plan(list, len, INDEX, LENGTH, BLOCK, 0, LENGTH, plan, ROOM);
    passed(a.refusal, a.place);
    for (const uint8_t *piece = plan; piece < plan + a.count; piece += EZK_PIECE)
        for (uint64_t j = 0; j < number(piece + 30, 4); j++)
            bytes[number(piece + 6, 4) + j] = piece_byte(piece, j);
    printf("%s list reads", what);
    for (size_t i = 0; i < sizeof some / sizeof *some; i++)
        printf(" %d", bytes[some[i]]);
    puts("");
}

int main(void)
{
    static uint8_t old_bytes[LENGTH], new_bytes[LENGTH];
    uint8_t list[4 * EZK_RECORD], plan[ROOM], new_list[2 * EZK_RECORD], *to = list;
    for (int i = 0; i < 4; i++) {
        to = put_record(to, records[i]);
        for (uint64_t o = 0; o < records[i][2]; o++) /* some bytes of the slice */
            *slice_byte(records[i][1], records[i][2], o) = (uint8_t)(60 * records[i][1] + o % 60);
    }
    read_chunk("old", list, sizeof list, old_bytes);

    ezk_compacted c = ezk_compact(list, sizeof list, INDEX, BLOCK, 3, 4, plan, ROOM, new_list,
                                  sizeof new_list);
    passed(c.refusal, c.place);
    uint64_t size = number(new_list + 12, 4); /* of the new slice, in its record */
    for (const uint8_t *piece = plan; piece < plan + c.plan; piece += EZK_PIECE) {
        uint64_t place = number(piece + 6, 4), length = number(piece + 30, 4);
        printf("%.2s %" PRIu64 " %" PRIu64 " %" PRIu64 "\n", (const char *)piece,
               number(piece + 2, 4), place, length);
        for (uint64_t j = 0; j < length; j++)
            *slice_byte(4, size, place + j) = piece_byte(piece, j);
    }
    for (int i = 0; i < OBJECTS && store[i].name[0]; i++)
        puts(store[i].name);
    read_chunk("new", new_list, c.list, new_bytes);
    puts(memcmp(old_bytes, new_bytes, LENGTH) ? "they differ" : "both read the same bytes");
    return 0;
}
