/* The lists of a call on a file: how its bytes are divided, and numbers near their edges. */
#include "shape.h"

#include <string.h>

#include "input.h"

/*
 * How lists are spoiled, in most cases not at all: one length too large; an edge inside a record;
 * lengths whose sum is right but for 2^64; or bytes of the lists themselves.
 */
enum { LONGER = 1, MOVED, TURNED, BYTES_SPOILED, WAYS = 16 };

/* As they are, the lengths stand in front of the lists, 8 bytes each. */
static void take_lengths(call *call, uint8_t *bytes, uint64_t *lengths)
{
    if (call->lists > call->len / 8)
        call->lists = call->len / 8;
    size_t front = 8 * call->lists;
    for (size_t k = 0; k < call->lists; k++)
        lengths[k] = be(bytes + 8 * k, 8);
    call->len -= front;
    memmove(bytes, bytes + front, call->len);
}

/* Four bits a list; one past the sixteenth has no share. */
static uint64_t share(uint64_t shares, size_t k)
{
    return k < EZK_LISTS ? shares >> 4 * k & 15 : 0;
}

/* Each list takes its share of the records, and the last one what is left. */
static void share_out(const call *call, uint64_t *lengths, uint64_t shares)
{
    uint64_t all = 0, left = call->len;
    for (size_t k = 0; k < call->lists; k++)
        all += share(shares, k);
    for (size_t k = 0; k < call->lists; k++) {
        uint64_t records = all ? call->len / EZK_RECORD * share(shares, k) / all : 0;
        lengths[k] = k + 1 == call->lists ? left : records * EZK_RECORD;
        left -= lengths[k];
    }
}

/* Every second list covers the end of its chunk, and so lies beside the next one. */
static void move_to_end(const call *call, uint8_t *bytes)
{
    for (size_t k = 0; k < call->lists; bytes += call->lengths[k++])
        for (size_t i = 0; k % 2 == 0 && i < call->lengths[k] / EZK_RECORD; i++) {
            record r = record_at(bytes, i);
            r.pos += EZK_CHUNK - NEAR;
            put_record(bytes + i * EZK_RECORD, r);
        }
}

static void spoil_lengths(const call *call, uint64_t *lengths, unsigned choice)
{
    if (!call->lists)
        return;
    size_t k = choice / WAYS % call->lists, next = (k + 1) % call->lists;
    uint64_t more = choice % WAYS == TURNED ? 1ull << 63 : 1;
    if (choice % WAYS < LONGER || choice % WAYS > TURNED)
        return;
    lengths[k] += more;
    if (choice % WAYS != LONGER)
        lengths[next] -= more;
}

/* Near an edge of a chunk, or anywhere in the chunks. */
static uint64_t near_edge(uint64_t number, uint64_t lists, uint64_t end)
{
    uint64_t edge = number / 2 % (lists + 1) * EZK_CHUNK, from = edge + number / 64 % (2 * end);
    if (number % 2)
        return from < end ? 0 : from - end;
    return number / 2 % (lists * EZK_CHUNK + 2);
}

static void shape_file_numbers(call *call, enum shape shape)
{
    uint64_t *n = call->number, end = shape == SOUND ? EZK_CHUNK : 2 * NEAR;
    n[0] = shaped_index(n[0]);
    uint64_t before = n[0] * EZK_CHUNK, choice = n[1] % 4, file_len = n[1] / 4;
    if (choice == 1)
        n[1] = file_len % (before + 1);
    else if (choice)
        n[1] = before + near_edge(file_len, call->lists, end);
    n[2] = shaped_block_size(n[2]);
    n[3] = near_edge(n[3], call->lists, end);
    n[4] = n[4] % 2 ? n[4] / 2 % (2 * end) : near_edge(n[4] / 2, call->lists, end);
    if (call->kind == NEXT_FILE_PIECE)
        n[PLACE] = shaped_place(n[PLACE], file_read(call));
}

void give_lengths(call *call, uint8_t *bytes, const uint8_t *head)
{
    static uint64_t lengths[LISTS_MAX];
    enum shape shape = head[SHAPE] % SHAPES;
    uint64_t shares = be(head + SHARES, 8);
    call->lengths = lengths;
    if (shape == AS_IS) {
        take_lengths(call, bytes, lengths);
        return;
    }
    if (head[SPOILED] % WAYS == BYTES_SPOILED)
        spoil_records(bytes, &call->len, shares);
    share_out(call, lengths, shares);
    if (shape == SMALL)
        move_to_end(call, bytes);
    spoil_lengths(call, lengths, head[SPOILED]);
    shape_file_numbers(call, shape);
}
