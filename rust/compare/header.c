/*
 * Every call through the declarations of ezumokarin.h: inputs by position, fields by name. The
 * comparison makes its calls here as well as through the Rust crate, so that a slip of the
 * header shows as a difference. `to` is given the fields in the order in which header.rs reads
 * them.
 */
#include <stddef.h>
#include <stdint.h>

#include "ezumokarin.h"

/*
 * What is done to an answer `a` and its bytes before they are compared: nothing, or what build.rs is
 * told, so that tools/check-header can see that the comparison finds a spoiled answer.
 */
#ifndef SPOIL_FILE
#define SPOIL_FILE
#endif
#ifndef SPOIL_FILE_NEXT
#define SPOIL_FILE_NEXT
#endif
#ifndef SPOIL_JUDGED
#define SPOIL_JUDGED
#endif
#ifndef SPOIL_NEXT
#define SPOIL_NEXT
#endif
#ifndef SPOIL_PART
#define SPOIL_PART
#endif
#ifndef SPOIL_VIEW
#define SPOIL_VIEW
#endif

/* Every field is a number of 8 bytes, at its place, and no struct has more. */
#define FIELD(type, field, place)                                                                \
    _Static_assert(offsetof(type, field) == 8 * (place) && sizeof(((type *)0)->field) == 8,      \
                   #type "." #field)
#define FIELDS(type, count) _Static_assert(sizeof(type) == 8 * (count), #type)

FIELD(ezk_answer, refusal, 0);
FIELD(ezk_answer, place, 1);
FIELD(ezk_answer, count, 2);
FIELDS(ezk_answer, 3);

FIELD(ezk_found, refusal, 0);
FIELD(ezk_found, place, 1);
FIELD(ezk_found, found, 2);
FIELD(ezk_found, segment, 3);
FIELD(ezk_found, pos, 4);
FIELD(ezk_found, id, 5);
FIELD(ezk_found, size, 6);
FIELD(ezk_found, off, 7);
FIELD(ezk_found, len, 8);
FIELDS(ezk_found, 9);

FIELD(ezk_file_answer, refusal, 0);
FIELD(ezk_file_answer, place, 1);
FIELD(ezk_file_answer, index, 2);
FIELD(ezk_file_answer, count, 3);
FIELDS(ezk_file_answer, 4);

FIELD(ezk_next, refusal, 0);
FIELD(ezk_next, place, 1);
FIELD(ezk_next, finished, 2);
FIELD(ezk_next, next, 3);
FIELD(ezk_next, mark, 4);
FIELD(ezk_next, index, 5);
FIELD(ezk_next, at, 6);
FIELD(ezk_next, id, 7);
FIELD(ezk_next, block, 8);
FIELD(ezk_next, block_len, 9);
FIELD(ezk_next, in_block, 10);
FIELD(ezk_next, len, 11);
FIELDS(ezk_next, 12);

FIELD(ezk_file_next, refusal, 0);
FIELD(ezk_file_next, place, 1);
FIELD(ezk_file_next, list_index, 2);
FIELD(ezk_file_next, finished, 3);
FIELD(ezk_file_next, next, 4);
FIELD(ezk_file_next, mark, 5);
FIELD(ezk_file_next, index, 6);
FIELD(ezk_file_next, at, 7);
FIELD(ezk_file_next, id, 8);
FIELD(ezk_file_next, block, 9);
FIELD(ezk_file_next, block_len, 10);
FIELD(ezk_file_next, in_block, 11);
FIELD(ezk_file_next, len, 12);
FIELDS(ezk_file_next, 13);

FIELD(ezk_judged, refusal, 0);
FIELD(ezk_judged, place, 1);
FIELD(ezk_judged, index, 2);
FIELD(ezk_judged, verdict, 3);
FIELD(ezk_judged, at, 4);
FIELDS(ezk_judged, 5);

FIELD(ezk_compacted, refusal, 0);
FIELD(ezk_compacted, place, 1);
FIELD(ezk_compacted, plan, 2);
FIELD(ezk_compacted, list, 3);
FIELDS(ezk_compacted, 4);

FIELD(ezk_part, refusal, 0);
FIELD(ezk_part, place, 1);
FIELD(ezk_part, rewritten, 2);
FIELD(ezk_part, offset, 3);
FIELD(ezk_part, length, 4);
FIELDS(ezk_part, 5);

FIELD(ezk_object, refusal, 0);
FIELD(ezk_object, place, 1);
FIELD(ezk_object, id, 2);
FIELD(ezk_object, block, 3);
FIELD(ezk_object, length, 4);
FIELD(ezk_object, volume, 5);
FIELDS(ezk_object, 6);

FIELD(ezk_chunk_key, refusal, 0);
FIELD(ezk_chunk_key, place, 1);
FIELD(ezk_chunk_key, inode, 2);
FIELD(ezk_chunk_key, index, 3);
FIELDS(ezk_chunk_key, 4);

#define NAMED(constant) {#constant, constant}

static const struct {
    const char *name;
    uint64_t value;
} constants[] = {
    NAMED(EZK_DONE),
    NAMED(EZK_LIST_LENGTH),
    NAMED(EZK_LIST_RECORDS),
    NAMED(EZK_RECORD_END),
    NAMED(EZK_SLICE_SIZE),
    NAMED(EZK_ZERO_RECORD),
    NAMED(EZK_SLICE_END),
    NAMED(EZK_CHUNK_LENGTH),
    NAMED(EZK_BLOCK_SIZE),
    NAMED(EZK_NEW_ID),
    NAMED(EZK_FIRST_RECORDS),
    NAMED(EZK_TIDIED_RECORDS),
    NAMED(EZK_BUFFER),
    NAMED(EZK_FORM),
    NAMED(EZK_TWO_SIZES),
    NAMED(EZK_CHUNK_LISTS),
    NAMED(EZK_CHUNK),
    NAMED(EZK_RECORD),
    NAMED(EZK_PIECE),
    NAMED(EZK_TKV_KEY),
    NAMED(EZK_LISTS),
    NAMED(EZK_ACCEPTED),
    NAMED(EZK_WRONG_PIECE),
    NAMED(EZK_WRONG_BYTE),
};

/* The name of a constant, and its value; NULL behind the last one. */
const char *via_constant(size_t which, uint64_t *value)
{
    if (which >= sizeof constants / sizeof *constants)
        return NULL;
    *value = constants[which].value;
    return constants[which].name;
}

static void answer(ezk_answer a, uint64_t *to)
{
    to[0] = a.refusal;
    to[1] = a.place;
    to[2] = a.count;
}

static void found(ezk_found a, uint64_t *to)
{
    to[0] = a.refusal;
    to[1] = a.place;
    to[2] = a.found;
    to[3] = a.segment;
    to[4] = a.pos;
    to[5] = a.id;
    to[6] = a.size;
    to[7] = a.off;
    to[8] = a.len;
}

static void file_answer(ezk_file_answer a, uint64_t *to)
{
    to[0] = a.refusal;
    to[1] = a.place;
    to[2] = a.index;
    to[3] = a.count;
}

static void next(ezk_next a, uint64_t *to)
{
    to[0] = a.refusal;
    to[1] = a.place;
    to[2] = a.finished;
    to[3] = a.next;
    to[4] = a.mark;
    to[5] = a.index;
    to[6] = a.at;
    to[7] = a.id;
    to[8] = a.block;
    to[9] = a.block_len;
    to[10] = a.in_block;
    to[11] = a.len;
}

static void file_next(ezk_file_next a, uint64_t *to)
{
    to[0] = a.refusal;
    to[1] = a.place;
    to[2] = a.list_index;
    to[3] = a.finished;
    to[4] = a.next;
    to[5] = a.mark;
    to[6] = a.index;
    to[7] = a.at;
    to[8] = a.id;
    to[9] = a.block;
    to[10] = a.block_len;
    to[11] = a.in_block;
    to[12] = a.len;
}

static void judged(ezk_judged a, uint64_t *to)
{
    to[0] = a.refusal;
    to[1] = a.place;
    to[2] = a.index;
    to[3] = a.verdict;
    to[4] = a.at;
}

static void compacted(ezk_compacted a, uint64_t *to)
{
    to[0] = a.refusal;
    to[1] = a.place;
    to[2] = a.plan;
    to[3] = a.list;
}

static void part(ezk_part a, uint64_t *to)
{
    to[0] = a.refusal;
    to[1] = a.place;
    to[2] = a.rewritten;
    to[3] = a.offset;
    to[4] = a.length;
}

static void object(ezk_object a, uint64_t *to)
{
    to[0] = a.refusal;
    to[1] = a.place;
    to[2] = a.id;
    to[3] = a.block;
    to[4] = a.length;
    to[5] = a.volume;
}

static void chunk_key(ezk_chunk_key a, uint64_t *to)
{
    to[0] = a.refusal;
    to[1] = a.place;
    to[2] = a.inode;
    to[3] = a.index;
}

void via_check(const uint8_t *list, size_t list_len, uint64_t *to)
{
    answer(ezk_check(list, list_len), to);
}

void via_view(const uint8_t *list, size_t list_len, uint64_t chunk_len, uint8_t *out,
              size_t out_len, uint64_t *to)
{
    ezk_answer a = ezk_view(list, list_len, chunk_len, out, out_len);
    SPOIL_VIEW
    answer(a, to);
}

void via_find(const uint8_t *view, size_t view_len, uint64_t segments, uint64_t position,
              uint64_t *to)
{
    found(ezk_find(view, view_len, segments, position), to);
}

void via_tidy(const uint8_t *list, size_t list_len, uint8_t *out, size_t out_len, uint64_t *to)
{
    answer(ezk_tidy(list, list_len, out, out_len), to);
}

void via_read_plan(const uint8_t *list, size_t list_len, uint64_t index, uint64_t chunk_len,
                   uint64_t block_size, uint64_t start, uint64_t count, uint8_t *out,
                   size_t out_len, uint64_t *to)
{
    answer(ezk_read_plan(list, list_len, index, chunk_len, block_size, start, count, out,
                         out_len),
           to);
}

void via_file_plan(const uint8_t *lists, size_t lists_len, const uint64_t *lengths,
                   size_t lengths_count, uint64_t first_index, uint64_t file_len,
                   uint64_t block_size, uint64_t start, uint64_t count, uint8_t *out,
                   size_t out_len, uint64_t *to)
{
    ezk_file_answer a = ezk_file_plan(lists, lists_len, lengths, lengths_count, first_index,
                                      file_len, block_size, start, count, out, out_len);
    SPOIL_FILE
    file_answer(a, to);
}

void via_next_piece(const uint8_t *list, size_t list_len, uint64_t index, uint64_t chunk_len,
                    uint64_t block_size, uint64_t start, uint64_t count, uint64_t at, uint64_t *to)
{
    ezk_next a = ezk_next_piece(list, list_len, index, chunk_len, block_size, start, count, at);
    SPOIL_NEXT
    next(a, to);
}

void via_next_file_piece(const uint8_t *lists, size_t lists_len, const uint64_t *lengths,
                         size_t lengths_count, uint64_t first_index, uint64_t file_len,
                         uint64_t block_size, uint64_t start, uint64_t count, uint64_t at,
                         uint64_t *to)
{
    ezk_file_next a = ezk_next_file_piece(lists, lists_len, lengths, lengths_count, first_index,
                                          file_len, block_size, start, count, at);
    SPOIL_FILE_NEXT
    file_next(a, to);
}

void via_judge_plan(const uint8_t *lists, size_t lists_len, const uint64_t *lengths,
                    size_t lengths_count, uint64_t first_index, uint64_t file_len,
                    uint64_t block_size, uint64_t start, uint64_t count, const uint8_t *plan,
                    size_t plan_len, uint64_t *to)
{
    ezk_judged a = ezk_judge_plan(lists, lists_len, lengths, lengths_count, first_index, file_len,
                                  block_size, start, count, plan, plan_len);
    SPOIL_JUDGED
    judged(a, to);
}

void via_compact(const uint8_t *list, size_t list_len, uint64_t index, uint64_t block_size,
                 uint64_t k, uint64_t new_id, uint8_t *plan, size_t plan_len, uint8_t *new_list,
                 size_t new_list_len, uint64_t *to)
{
    compacted(ezk_compact(list, list_len, index, block_size, k, new_id, plan, plan_len,
                          new_list, new_list_len),
              to);
}

void via_added(const uint8_t *older, size_t older_len, const uint8_t *newer, size_t newer_len,
               uint64_t *to)
{
    ezk_part a = ezk_added(older, older_len, newer, newer_len);
    SPOIL_PART
    part(a, to);
}

void via_write_object_name(uint64_t id, uint64_t block, uint64_t length, uint8_t *out,
                           size_t out_len, uint64_t *to)
{
    answer(ezk_write_object_name(id, block, length, out, out_len), to);
}

void via_write_full_name(const uint8_t *volume, size_t volume_len, uint64_t id, uint64_t block,
                         uint64_t length, uint8_t *out, size_t out_len, uint64_t *to)
{
    answer(ezk_write_full_name(volume, volume_len, id, block, length, out, out_len), to);
}

void via_read_object_name(const uint8_t *name, size_t name_len, uint64_t *to)
{
    object(ezk_read_object_name(name, name_len), to);
}

void via_read_full_name(const uint8_t *name, size_t name_len, uint64_t *to)
{
    object(ezk_read_full_name(name, name_len), to);
}

void via_write_redis_key(uint64_t inode, uint64_t index, uint8_t *out, size_t out_len,
                         uint64_t *to)
{
    answer(ezk_write_redis_key(inode, index, out, out_len), to);
}

void via_write_tkv_key(uint64_t inode, uint64_t index, uint8_t *out, size_t out_len, uint64_t *to)
{
    answer(ezk_write_tkv_key(inode, index, out, out_len), to);
}

void via_read_redis_key(const uint8_t *key, size_t key_len, uint64_t *to)
{
    chunk_key(ezk_read_redis_key(key, key_len), to);
}

void via_read_tkv_key(const uint8_t *key, size_t key_len, uint64_t *to)
{
    chunk_key(ezk_read_tkv_key(key, key_len), to);
}
