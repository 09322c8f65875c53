#include "shape.h"

#include <string.h>

#include "input.h"

/*
 * SMALL and MANY lists have positions up to NEAR and few ids, so that much overlaps; MANY ones
 * go on from there by two positions at a time, below UNDER_ALL. Their slices have one size, but
 * for a record now and then.
 */
enum { IDS = 4, OTHERWISE = 64, UNDER_ALL = 2 * (NEAR + RECORDS_MAX) };

static record sound(record r, enum shape shape, size_t turn)
{
    uint64_t end = shape == SOUND ? EZK_CHUNK : NEAR;
    r.pos %= end + 1;
    r.len %= end - r.pos + 1;
    if (shape == MANY)
        r.pos += 2 * turn;
    if (shape != SOUND)
        r.id %= IDS;
    if (r.id == 0) {
        r.size = r.size % 2 ? r.len : 0;
        r.off = 0;
    } else {
        r.off %= end - r.len + 1;
        r.size = shape == SOUND ? r.off + r.len + r.size % (end - r.off - r.len + 1)
                                : NEAR + (r.size % OTHERWISE == 1);
    }
    return r;
}

/* What follows the last whole record is dropped. */
static void shape_list(call *call, uint8_t *bytes, enum shape shape, size_t many)
{
    static uint8_t given[LIST_MAX];
    size_t records = call->len / EZK_RECORD, made = shape == MANY && records ? many : records;
    memcpy(given, bytes, call->len);
    uint8_t *to = bytes;
    for (size_t i = 0; i < made; i++) {
        record r = sound(record_at(given, i % records), shape, i / records);
        /* A first record under all others: the tidied list can be longer than the list. */
        if (shape == MANY && i == 0 && r.id)
            r = (record){0, IDS + r.id, UNDER_ALL, 0, UNDER_ALL};
        to = put_record(to, r);
    }
    call->len = (size_t)(to - bytes);
}

uint64_t shaped_block_size(uint64_t number)
{
    return 1ull << (15 + number % 11);
}

uint64_t shaped_index(uint64_t number)
{
    uint64_t choice = number % 8;
    number /= 8;
    return choice == 0 ? number : choice < 3 ? (1ull << 32) + 3 - number % 24 : number % 8;
}

uint64_t shaped_place(uint64_t number, uint64_t bytes)
{
    return number % 8 ? number / 8 % (bytes + 2) : number / 8;
}

/* Into the range that the call allows, or one above it; near the records of small lists. */
static void shape_numbers(call *call, enum shape shape)
{
    uint64_t *n = call->number;
    uint64_t end = shape == SOUND ? EZK_CHUNK : shape == SMALL ? 2 * NEAR : UNDER_ALL;
    switch (call->kind) {
    case VIEW:
        n[0] %= end + 2;
        return;
    case FIND:
        n[0] = n[0] % 8 ? n[0] / 8 % (call->len / EZK_RECORD + 2) : call->len;
        n[1] %= end + 2;
        return;
    case READ_PLAN:
    case NEXT_PIECE:
        n[0] = shaped_index(n[0]);
        n[1] %= end + 2;
        n[2] = shaped_block_size(n[2]);
        n[3] %= end + 2;
        n[4] %= end + 2;
        n[PLACE] = shaped_place(n[PLACE], chunk_read(call));
        return;
    case COMPACT:
        n[0] = shaped_index(n[0]);
        n[1] = shaped_block_size(n[1]);
        n[2] %= call->len / EZK_RECORD + 2;
        n[3] = shape == SOUND ? n[3] : n[3] % (4 * IDS);
        return;
    case WRITE_OBJECT_NAME:
    case WRITE_FULL_NAME:
        n[1] %= 1025;
        n[2] %= 16777218;
        return;
    case WRITE_REDIS_KEY:
    case WRITE_TKV_KEY:
        n[1] %= (1ull << 32) + 1;
        return;
    default:
        return;
    }
}

void spoil_records(uint8_t *bytes, size_t *length, uint64_t choice)
{
    uint8_t kept[EZK_RECORD], *one = bytes, *other = bytes;
    size_t len = *length, records = len / EZK_RECORD;
    uint64_t which = choice / 4;
    if (!records)
        return;
    switch (choice % 4) {
    case 0:
        bytes[which % len] = (uint8_t)(choice >> 56);
        return;
    case 1:
        *length -= which % 2 ? which % (len + 1) : which % (records + 1) * EZK_RECORD;
        return;
    case 2:
        one += which % records * EZK_RECORD;
        other += which / records % records * EZK_RECORD;
        memcpy(kept, one, EZK_RECORD);
        memmove(one, other, EZK_RECORD);
        memcpy(other, kept, EZK_RECORD);
        return;
    default:
        return;
    }
}

/* The view of the list, spoiled as the last number says; the list itself where it has none. */
static void shape_view(call *call, uint8_t *bytes, enum shape shape)
{
    struct call viewing = {.kind = VIEW, .bytes = bytes, .len = call->len};
    viewing.number[0] = call->number[2];
    shape_numbers(&viewing, shape);
    answer view = make_ample(&viewing);
    if (!view.refusal) {
        call->len = view.value[0];
        memcpy(bytes, view.written[0], call->len);
    }
    done_with(&view);
    spoil_records(bytes, &call->len, call->number[3]);
}

/* What the writer makes of the numbers, then the given bytes in pairs: a place and a byte. */
static void spoil_text(call *call, uint8_t *bytes, enum kind writer, enum shape shape)
{
    struct call writing = {.kind = writer, .bytes = (const uint8_t *)"jfs-0", .len = 5};
    memcpy(writing.number, call->number, sizeof writing.number);
    shape_numbers(&writing, shape);
    answer written = make_ample(&writing);
    size_t len = written.value[0], pairs = call->len / 2;
    for (size_t i = 0; len && i < pairs; i++)
        written.written[0][bytes[2 * i] % len] = bytes[2 * i + 1];
    /* An odd byte at the end is added to the text. */
    uint8_t odd = call->len ? bytes[call->len - 1] : 0;
    memcpy(bytes, written.written[0], len);
    if (call->len % 2)
        bytes[len++] = odd;
    call->len = len;
    done_with(&written);
}

void give_shape(call *call, uint8_t *bytes, uint8_t choice)
{
    enum shape shape = choice % SHAPES;
    if (shape == AS_IS)
        return;
    switch (call->kind) {
    case READ_OBJECT_NAME:
        return spoil_text(call, bytes, WRITE_OBJECT_NAME, shape);
    case READ_FULL_NAME:
        return spoil_text(call, bytes, WRITE_FULL_NAME, shape);
    case READ_REDIS_KEY:
        return spoil_text(call, bytes, WRITE_REDIS_KEY, shape);
    case READ_TKV_KEY:
        return spoil_text(call, bytes, WRITE_TKV_KEY, shape);
    case CHECK:
    case VIEW:
    case FIND:
    case TIDY:
    case READ_PLAN:
    case FILE_PLAN:
    case NEXT_PIECE:
    case NEXT_FILE_PIECE:
    case JUDGE_PLAN:
    case COMPACT:
    case ADDED:
        shape_list(call, bytes, shape, choice / SHAPES * RECORDS_MAX / (255 / SHAPES));
        if (call->kind == FIND)
            shape_view(call, bytes, shape);
        break;
    default:
        break;
    }
    shape_numbers(call, shape);
}
