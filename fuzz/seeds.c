/*
 * seeds FOLDER: writes the inputs that the fuzzer starts from: the cases of the requirements,
 * and limits from both sides. Prints the length of the longest input that is worth trying.
 */
#include "call.h"
#include "input.h"
#include "shape.h"

#include <stdio.h>
#include <stdlib.h>
#include <string.h>

enum { MIB = 1 << 20, BLOCK = 4 * MIB };

static const char *folder;
static unsigned seeds;

/* How many lists are joined, and what is done to their lengths. */
typedef struct joined {
    unsigned lists, spoiled;
    uint64_t shares;
} joined;

/* One input; where its memory stands and how long its rooms are changes from seed to seed. */
static void seed_joined(enum kind kind, unsigned shape, joined joined, const uint64_t *number,
                        const void *bytes, size_t len)
{
    static uint8_t input[BYTES + LIST_MAX];
    char path[4096];
    input[KIND] = (uint8_t)kind;
    input[SHAPE] = (uint8_t)shape;
    input[STANDS] = (uint8_t)(seeds * 27);
    input[SALT] = (uint8_t)seeds;
    put(put(input + ROOMS, seeds, 2), seeds / 2, 2);
    input[JOINED] = (uint8_t)joined.lists;
    input[SPOILED] = (uint8_t)joined.spoiled;
    put(input + SHARES, joined.shares, 8);
    for (int i = 0; i < ARGUMENTS; i++)
        put(input + NUMBERS + 8 * i, number[i], 8);
    memcpy(input + BYTES, bytes, len);
    snprintf(path, sizeof path, "%s/%03u", folder, seeds++);
    FILE *file = fopen(path, "wb");
    if (!file || fwrite(input, 1, BYTES + len, file) != BYTES + len || fclose(file)) {
        perror(path);
        exit(1);
    }
}

static void seed(enum kind kind, unsigned shape, const uint64_t *number, const void *bytes,
                 size_t len)
{
    seed_joined(kind, shape, (joined){0}, number, bytes, len);
}

#define WITH(...) ((const uint64_t[ARGUMENTS]){__VA_ARGS__})

/* One list of chunk 1; or the records divided into three lists, or four. As it is, a judged plan
 * is empty. */
static void file_seeds(enum kind kind, unsigned shape, const uint8_t *list, size_t len)
{
    static uint8_t bytes[8 + LIST_MAX];
    uint64_t last = kind == JUDGE_PLAN && shape % SHAPES == AS_IS ? 0 : 8 * MIB + 1;
    uint64_t first = shape % SHAPES == AS_IS ? 1 : 8 + 3; /* its shape is 1 */
    const uint64_t *number = WITH(first, 4ull * EZK_CHUNK, BLOCK, 0, 2 * EZK_CHUNK, last);
    memcpy(put(bytes, len, 8), list, len);
    if (shape % SHAPES == AS_IS)
        seed_joined(kind, shape, (joined){1, 0, 0}, number, bytes, 8 + len);
    for (unsigned spoiled = 0; shape % SHAPES != AS_IS && spoiled < 5; spoiled++)
        seed_joined(kind, shape, (joined){3 + spoiled % 2, spoiled, 0x1321}, number, list, len);
}

static void list_seeds(unsigned shape, const uint8_t *list, size_t len)
{
    seed(CHECK, shape, WITH(0), list, len);
    seed(VIEW, shape, WITH(EZK_CHUNK), list, len);
    seed(FIND, shape, WITH(8 * 3, 5, 20, 3), list, len);
    seed(TIDY, shape, WITH(0), list, len);
    seed(READ_PLAN, shape, WITH(7, EZK_CHUNK, BLOCK, 0, EZK_CHUNK), list, len);
    seed(NEXT_PIECE, shape, WITH(7, EZK_CHUNK, BLOCK, 0, EZK_CHUNK, 8 * 5 + 1), list, len);
    seed(COMPACT, shape, WITH(7, BLOCK, 1, 1000), list, len);
    seed(ADDED, shape, WITH(EZK_RECORD), list, len);
    file_seeds(FILE_PLAN, shape, list, len);
    file_seeds(NEXT_FILE_PIECE, shape, list, len);
    file_seeds(JUDGE_PLAN, shape, list, len);
}

static size_t list_of(uint8_t *list, const record *records, size_t count)
{
    uint8_t *to = list;
    for (size_t i = 0; i < count; i++)
        to = put_record(to, records[i]);
    return (size_t)(to - list);
}

static void lengths(void)
{
    static const uint8_t zeros[LIST_MAX];
    const size_t lens[] = {0, 23, 24, 25, 24576, 24600, 49152, 49176, 49177};
    seed(VIEW, AS_IS, WITH(0), zeros, 0);
    seed(VIEW, AS_IS, WITH(5), zeros, 0);
    for (size_t i = 0; i < sizeof lens / sizeof *lens; i++)
        list_seeds(AS_IS, zeros, lens[i]);
}

static void single_records(void)
{
    const record records[] = {
        {67108863, 0, 0, 0, 1},
        {67108863, 0, 0, 0, 2},      /* 3 */
        {0, 7, EZK_CHUNK + 1, 0, 1}, /* 4 */
        {0, 0, 8, 0, 8},
        {0, 0, 1, 0, 8}, /* 5 */
        {0, 0, 8, 1, 8}, /* 5 */
        {0, 0, 0, 1, 1}, /* 5 */
        {0, 7, 10, 4, 6},
        {0, 7, 10, 4, 7}, /* 6 */
        {0, 3, 5 * MIB, 0, 5 * MIB},
        {0, 7, 10, 10, 0},
    };
    uint8_t list[EZK_RECORD];
    for (size_t i = 0; i < sizeof records / sizeof *records; i++)
        list_seeds(AS_IS, list, list_of(list, &records[i], 1));
}

static void plans(const uint8_t *list, size_t len)
{
    const uint64_t high = UINT32_MAX;
    seed(READ_PLAN, AS_IS, WITH(0, EZK_CHUNK, BLOCK, 15728640, 2097152), list, len);
    seed(READ_PLAN, AS_IS, WITH(high, EZK_CHUNK, 65536, 10 * MIB, 8 * MIB), list, len);
    seed(READ_PLAN, AS_IS, WITH(1, EZK_CHUNK, 16 * MIB, UINT64_MAX, UINT64_MAX), list, len);
    seed(READ_PLAN, AS_IS, WITH(1, EZK_CHUNK, 65537, 0, 1), list, len);            /* 8 */
    seed(READ_PLAN, AS_IS, WITH(high + 1, EZK_CHUNK + 1, BLOCK, 0, 1), list, len); /* 7 */
    seed(READ_PLAN, AS_IS, WITH(high + 1, EZK_CHUNK, 65537, 0, 0), list, len);     /* 21 */
    seed(COMPACT, AS_IS, WITH(high + 1, 32768, 1, 1000), list, len);               /* 21 */
    seed(COMPACT, AS_IS, WITH(1, 32768, 1, 1000), list, len);                      /* 8 */
    seed(COMPACT, AS_IS, WITH(1, BLOCK, 1, 12), list, len);                        /* 9 */
    seed(COMPACT, AS_IS, WITH(1, BLOCK, 4, 1000), list, len);                      /* 10 */
    for (uint64_t k = 0; k <= 3; k++)
        seed(COMPACT, AS_IS, WITH(high, 65536, k, UINT64_MAX), list, len);
}

/* A read of 2 MiB over the edge of two objects, which lies at 1 MiB. */
static void places(const uint8_t *list, size_t len)
{
    const uint64_t high = UINT32_MAX;
    const uint64_t at[] = {0, 1, MIB - 1, MIB, MIB + 1, 2 * MIB - 1, 2 * MIB, high, UINT64_MAX};
    for (size_t i = 0; i < sizeof at / sizeof *at; i++)
        seed(NEXT_PIECE, AS_IS, WITH(9, EZK_CHUNK, BLOCK, 15 * MIB, 2 * MIB, at[i]), list, len);
    seed(NEXT_PIECE, AS_IS, WITH(0, EZK_CHUNK, 65536, 0, UINT64_MAX, 9 * MIB), list, len);
    seed(NEXT_PIECE, AS_IS, WITH(0, 0, BLOCK, 0, 0, 0), list, len);
    seed(NEXT_PIECE, AS_IS, WITH(1, EZK_CHUNK, 65537, 0, 1, 1), list, len);            /* 8 */
    seed(NEXT_PIECE, AS_IS, WITH(high + 1, EZK_CHUNK + 1, BLOCK, 0, 1, 1), list, len); /* 7 */
    seed(NEXT_PIECE, AS_IS, WITH(high + 1, EZK_CHUNK, 65537, 0, 0, 0), list, len);     /* 21 */
    seed(NEXT_PIECE, AS_IS, WITH(1, EZK_CHUNK, BLOCK, 0, 1, 1), list, len - 1);        /* 1 */
}

/* Lengths and lists as they are, for the whole plan, for one piece of it, and beside no plan. */
static void all_on_file(unsigned lists, const uint64_t *number, const void *bytes, size_t len)
{
    uint64_t without[ARGUMENTS];
    memcpy(without, number, sizeof without);
    without[CHANGES] = 0;
    seed_joined(JUDGE_PLAN, AS_IS, (joined){lists, 0, 0}, without, bytes, len);
    seed_joined(FILE_PLAN, AS_IS, (joined){lists, 0, 0}, number, bytes, len);
    seed_joined(NEXT_FILE_PIECE, AS_IS, (joined){lists, 0, 0}, number, bytes, len);
}

/* The records as two lists, the first of them with so many bytes. */
static void two_lists(uint64_t first_len, const uint64_t *number, const record *records,
                      size_t count)
{
    uint8_t bytes[2 * 8 + 4 * EZK_RECORD], *lists = put(bytes, first_len, 8);
    size_t len = list_of(put(lists, count * EZK_RECORD - first_len, 8), records, count);
    all_on_file(2, number, bytes, 16 + len);
}

/* A read over the edge of chunks 2 and 3, behind which the same object goes on. */
static void files(void)
{
    const record last = {EZK_CHUNK - 8, 7, 16, 0, 8}, first = {0, 7, 16, 8, 8};
    const record sound[] = {last, first, {8, 0, 0, 0, 4}};
    const record bad[] = {last, first, {0, 7, 17, 0, 8}};
    const record worse[] = {last, {0, 7, 16, 9, 8}, last};
    const uint64_t *number = WITH(2, 4ull * EZK_CHUNK, BLOCK, EZK_CHUNK - 10, 30, 9);
    const uint64_t high = UINT32_MAX, ends[] = {0, EZK_RECORD, 3 * EZK_RECORD, EZK_RECORD - 1};
    const uint64_t at[] = {0, 1, 2, 10, 17, 18, 29, 30, 31, UINT64_MAX}; /* pieces, and the end */
    static const uint8_t zeros[8 * LISTS_MAX];
    for (size_t i = 0; i < sizeof ends / sizeof *ends; i++)
        two_lists(ends[i], number, sound, 3);
    two_lists(EZK_RECORD, number, bad, 3);   /* 16 in the second list */
    two_lists(EZK_RECORD, number, worse, 3); /* 6 in the second list */
    two_lists(1ull << 63, number, sound, 3); /* 21 */
    two_lists(EZK_RECORD, WITH(high - 1, UINT64_MAX, BLOCK, 0, UINT64_MAX), sound, 3);
    two_lists(EZK_RECORD, WITH(high, UINT64_MAX, BLOCK, 0, 1), sound, 3);  /* 21 */
    two_lists(EZK_RECORD, WITH(high, UINT64_MAX, 65537, 0, 1), sound, 3);  /* 21 */
    two_lists(EZK_RECORD, WITH(2, 0, 65537, 0, 1), sound, 3);              /* 8 */
    two_lists(EZK_RECORD, WITH(2, 2ull * EZK_CHUNK, BLOCK, 0, 1), sound, 3);
    two_lists(EZK_RECORD, WITH(2, 3ull * EZK_CHUNK + 5, 65536, EZK_CHUNK - 3, 99), sound, 3);
    two_lists(EZK_RECORD, WITH(0, UINT64_MAX, BLOCK, UINT64_MAX, UINT64_MAX), sound, 3);
    for (size_t i = 0; i < sizeof at / sizeof *at; i++)
        two_lists(EZK_RECORD, WITH(2, UINT64_MAX, BLOCK, EZK_CHUNK - 10, 30, at[i]), sound, 3);
    for (unsigned lists = 0; lists <= LISTS_MAX; lists++) /* 21 for none, and above 16 */
        all_on_file(lists, WITH(0, UINT64_MAX, 65536, 1, UINT64_MAX), zeros, 8 * lists);
}

static uint8_t *put_piece(uint8_t *to, piece p)
{
    to = put(put(put(to, p.object ? 0x5242 : 0x525a, 2), p.index, 4), p.place, 4);
    to = put(put(put(to, p.id, 8), p.block, 4), p.block_len, 4);
    return put(put(to, p.in_block, 4), p.len, 4);
}

/* The read over the edge of chunks 2 and 3, with a plan of these of its four pieces, of whose last
 * one some bytes are cut off. */
static void judged_seed(const char *numbers, size_t cut)
{
    const record lists[] = {{EZK_CHUNK - 8, 7, 16, 0, 8}, {0, 7, 16, 8, 8}, {8, 0, 0, 0, 4}};
    const piece ours[] = {{0, 2, 0, 0, 0, 0, 0, 2},
                          {1, 2, 2, 7, 0, 16, 0, 8},
                          {1, 3, 10, 7, 0, 16, 8, 8},
                          {0, 3, 18, 0, 0, 0, 0, 12}};
    uint8_t bytes[2 * 8 + 3 * EZK_RECORD + 8 * EZK_PIECE], *to = put(bytes, EZK_RECORD, 8);
    to = put(to, 2 * EZK_RECORD, 8);
    to += list_of(to, lists, 3);
    for (size_t i = 0; numbers[i]; i++)
        to = put_piece(to, ours[numbers[i] - '0']);
    uint64_t plan = strlen(numbers) * EZK_PIECE - cut;
    const uint64_t *number = WITH(2, 4ull * EZK_CHUNK, BLOCK, EZK_CHUNK - 10, 30, plan);
    seed_joined(JUDGE_PLAN, AS_IS, (joined){2, 0, 0}, number, bytes, (size_t)(to - bytes) - cut);
}

/* Our plan of a read about the edge of two chunks, or of three whole ones, changed in each way. */
static void judged(void)
{
    const record near[] = {
        {0, 1, 64, 0, 60}, {9, 2, 64, 5, 20}, {30, 0, 0, 0, 7}, {3, 3, 64, 1, 2}};
    const char *const plans[] = {"0123", "3210", "013", "01123", "1230", "0", "00"};
    const uint64_t *number;
    uint8_t list[4 * EZK_RECORD];
    size_t len = list_of(list, near, 4);
    for (size_t i = 0; i < sizeof plans / sizeof *plans; i++)
        for (size_t cut = 0; cut < EZK_PIECE; cut += cut ? 32 : 1)
            judged_seed(plans[i], cut);
    for (uint64_t change = 0; change < 64; change++) {
        number = WITH(8 * 5 + 3, UINT64_MAX - 3, 1, 3, 2 * 250 + 1, 1 + 4 * change);
        seed_joined(JUDGE_PLAN, SMALL, (joined){3, 0, 0x222}, number, list, len);
    }
    for (uint64_t change = 0; change < 8; change++) {
        number = WITH(8 * 5 + 3, UINT64_MAX - 3, 1, 0, 12ull * EZK_CHUNK, 1 + 4 * change);
        seed_joined(JUDGE_PLAN, MANY + SHAPES * 40, (joined){3, 0, 0x132}, number, list, len);
    }
}

/* Sixteen chunks of one whole slice each: 1,024 objects a chunk. */
static void most_pieces(void)
{
    uint8_t bytes[EZK_LISTS * (8 + EZK_RECORD)], *to = bytes;
    for (int k = 0; k < EZK_LISTS; k++)
        to = put(to, EZK_RECORD, 8);
    for (uint64_t k = 0; k < EZK_LISTS; k++)
        to = put_record(to, (record){0, k + 1, EZK_CHUNK, 0, EZK_CHUNK});
    all_on_file(EZK_LISTS, WITH(0, UINT64_MAX, 65536, 0, UINT64_MAX), bytes, sizeof bytes);
}

static void small_lists(void)
{
    const record hidden[] = {{0, 7, 20, 0, 20}, {4, 0, 0, 0, 8}};
    const record sized[] = {{0, 7, 20, 0, 20}, {4, 0, 8, 0, 8}};
    const record three[] = {{10 * MIB, 10, 30 * MIB, 0, 30 * MIB},
                            {20 * MIB, 11, 16 * MIB, 0, 16 * MIB},
                            {16 * MIB, 12, 10 * MIB, 0, 10 * MIB}};
    /* One slice in two sizes, side by side and apart, the second time empty. */
    const record sizes[] = {{0, 11, 40 * MIB, 0, 40 * MIB}, {0, 11, 16 * MIB, 0, 160}}; /* 16 */
    const record apart[] = {{0, 11, 8, 0, 8}, {0, 0, 0, 0, 1}, {0, 11, 9, 0, 0}};       /* 16 */
    uint8_t list[3 * EZK_RECORD];
    list_seeds(AS_IS, list, list_of(list, sizes, 2));
    list_seeds(AS_IS, list, list_of(list, apart, 3));
    list_seeds(AS_IS, list, list_of(list, sized, 2));
    for (unsigned shape = AS_IS; shape < 256; shape += shape < MANY ? 1 : 7 * SHAPES)
        list_seeds(shape, list, list_of(list, hidden, 2));
    for (unsigned records = 28; records < 36; records++) /* times 32 */
        list_seeds(MANY + SHAPES * records, list, list_of(list, &(record){1, 1, 1, 0, 1}, 1));
    size_t len = list_of(list, three, 3);
    list_seeds(AS_IS, list, len);
    list_seeds(SOUND, list, len);
    seed(VIEW, AS_IS, WITH(EZK_CHUNK + 1), list, len); /* 7 */
    plans(list, len);
    places(list, len);
}

/* As they are: a view, a row that is none, and one whose last segment ends past 2^32. */
static void views(void)
{
    const record view[] = {{0, 7, 20, 0, 4}, {4, 0, 0, 0, 8}, {12, 7, 20, 12, 8}};
    const record unsorted[] = {{20, 7, 9, 0, 5}, {0, 7, 9, 0, 5}, {10, 7, 9, 0, 5}};
    const record high[] = {{0, 7, 9, 0, UINT32_MAX}, {UINT32_MAX, 7, 9, 0, UINT32_MAX}};
    const uint64_t numbers[] = {0, 1, 2, 3, 4, sizeof view / sizeof *view * EZK_RECORD, UINT64_MAX};
    const uint64_t positions[] = {0, 3, 4, 11, 12, 19, 20, UINT32_MAX, 1ull << 32, UINT64_MAX};
    uint8_t row[3 * EZK_RECORD];
    for (size_t i = 0; i < sizeof numbers / sizeof *numbers; i++)
        seed(FIND, AS_IS, WITH(numbers[i], 12), row, list_of(row, view, 3));
    for (size_t i = 0; i < sizeof positions / sizeof *positions; i++) {
        seed(FIND, AS_IS, WITH(3, positions[i]), row, list_of(row, view, 3));
        seed(FIND, AS_IS, WITH(3, positions[i]), row, list_of(row, unsorted, 3));
        seed(FIND, AS_IS, WITH(2, positions[i]), row, list_of(row, high, 2));
    }
    for (uint64_t spoiled = 0; spoiled < 16; spoiled++)
        seed(FIND, SMALL, WITH(8 * 2 + 1, 5, 20, spoiled), row, list_of(row, view, 3));
    seed(FIND, AS_IS, WITH(3, 0), row, sizeof row - 1); /* 1 */
}

/* The first records are the older list. */
static void pair(const record *records, size_t older, size_t count)
{
    uint8_t lists[6 * EZK_RECORD];
    seed(ADDED, AS_IS, WITH(older * EZK_RECORD), lists, list_of(lists, records, count));
}

static void pairs(void)
{
    const record a = {0, 7, 20, 0, 20}, b = {4, 0, 0, 0, 8}, c = {30, 8, 9, 0, 9};
    const record sized = {4, 0, 8, 0, 8}, other = {0, 7, 21, 0, 20}; /* 16 beside a */
    const record first = {16 * MIB, 7, 20, 0, 20}, last = {0, 7, 20, 0, 19};
    const record past = {0, 7, 20, 4, 17}; /* 6 */
    uint8_t list[3 * EZK_RECORD];
    size_t len = list_of(list, (const record[]){a, b, c}, 3);
    pair((const record[]){a, a, b, c}, 1, 4);
    pair((const record[]){a, b, a, b, c}, 2, 5);
    pair((const record[]){a, b, a, b}, 2, 4);
    pair((const record[]){a, b, b, a, c}, 2, 5);
    pair((const record[]){a, b, a, sized}, 2, 4);
    pair((const record[]){a, b, c, a}, 3, 4);
    pair((const record[]){a, b, c}, 0, 3);
    pair((const record[]){a, b, c}, 3, 3);
    pair((const record[]){a, first, b}, 1, 3);
    pair((const record[]){a, last, b}, 1, 3);
    pair((const record[]){a, other, past}, 2, 3);           /* 16 of the older */
    pair((const record[]){a, other, a, other, past}, 2, 5); /* 16, also as a beginning */
    pair((const record[]){a, b, a, b, other}, 2, 5);        /* 16 of the newer */
    for (uint64_t bits = 0; bits < 8; bits++)
        for (uint64_t spoiled = 0; spoiled < 16; spoiled++)
            seed(ADDED, SMALL, WITH(2, spoiled, spoiled / 2, bits), list, len);
    for (unsigned many = 0; many < 255 / SHAPES; many += 7)
        seed(ADDED, MANY + SHAPES * many, WITH(100 * many), list, len);
    seed(ADDED, AS_IS, WITH(len / 2 + 1), list, len); /* 1 */
}

/* A slice under zeros at every second byte: as many runs as the slice has bytes. */
static void combs(void)
{
    static record comb[1 + (TIDIED_RECORDS + 1) / 2];
    static uint8_t list[sizeof comb / sizeof *comb * EZK_RECORD];
    for (uint64_t bytes = TIDIED_RECORDS - 1; bytes <= TIDIED_RECORDS + 1; bytes++) {
        size_t count = 1 + bytes / 2;
        comb[0] = (record){0, 7, bytes, 0, bytes};
        for (size_t i = 1; i < count; i++)
            comb[i] = (record){2 * i - 1, 0, 0, 0, 1};
        list_seeds(AS_IS, list, list_of(list, comb, count));
    }
}

static void names(void)
{
    const char *const texts[] = {
        "chunks/1/1234/1234567_2_100",
        "chunks/0/0/3_0_4194304",
        "chunks/0/0/3_1_1048576",
        "jfstest/chunks/0/0/10_7_2097152",
        "foo-dev/chunks/18446744073709/18446744073709551/18446744073709551615_1023_16777216",
    };
    for (size_t i = 0; i < sizeof texts / sizeof *texts; i++) {
        seed(READ_OBJECT_NAME, AS_IS, WITH(0), texts[i], strlen(texts[i]));
        seed(READ_FULL_NAME, AS_IS, WITH(0), texts[i], strlen(texts[i]));
    }
    seed(READ_OBJECT_NAME, SOUND, WITH(1234567, 2, 100), "", 0);
    seed(READ_FULL_NAME, SOUND, WITH(1234567, 2, 100), "", 0);
    const uint64_t numbers[][ARGUMENTS] = {
        {1234567, 2, 100}, {3, 1, MIB}, {UINT64_MAX, 1023, 16 * MIB}, {0, 1024, 16 * MIB + 1}};
    char volume[64];
    memset(volume, 'z', sizeof volume);
    for (size_t i = 0; i < sizeof numbers / sizeof *numbers; i++) {
        seed(WRITE_OBJECT_NAME, AS_IS, numbers[i], "", 0);
        seed(WRITE_FULL_NAME, AS_IS, numbers[i], "jfs-0test", 9);
        for (size_t len = 0; len <= 64; len += 1 + 61 * (len == 1))
            seed(WRITE_FULL_NAME, AS_IS, numbers[i], volume, len);
    }
}

static void keys(void)
{
    const char *const redis[] = {"c100_0", "c100_0,5", "c0100_0",
                                 "c18446744073709551615_4294967295",
                                 "c18446744073709551616_4294967296"};
    for (size_t i = 0; i < sizeof redis / sizeof *redis; i++)
        seed(READ_REDIS_KEY, AS_IS, WITH(0), redis[i], strlen(redis[i]));
    seed(READ_REDIS_KEY, SOUND, WITH(100, 2), "", 0);
    seed(READ_TKV_KEY, SOUND, WITH(100, 2), "", 0);
    for (size_t len = 13; len <= 15; len++)
        seed(READ_TKV_KEY, AS_IS, WITH(0), "A\4\0\0\0\0\0\0\0C\0\0\0\2", len);
    const uint64_t numbers[][ARGUMENTS] = {
        {100, 0}, {4, 2}, {0, 0}, {UINT64_MAX, UINT32_MAX}, {0, 1ull << 32}};
    for (size_t i = 0; i < sizeof numbers / sizeof *numbers; i++) {
        seed(WRITE_REDIS_KEY, AS_IS, numbers[i], "", 0);
        seed(WRITE_TKV_KEY, AS_IS, numbers[i], "", 0);
    }
}

int main(int argc, char **argv)
{
    if (argc != 2) {
        fprintf(stderr, "usage: seeds FOLDER\n");
        return 2;
    }
    folder = argv[1];
    lengths();
    single_records();
    small_lists();
    files();
    judged();
    most_pieces();
    views();
    pairs();
    combs();
    names();
    keys();
    printf("%d\n", BYTES + LIST_MAX);
    return 0;
}
