/*
 * Refusals that follow from the inputs, as the header words them. The comparisons in here
 * also lead the fuzzer (value profile), as the archive's own cannot be seen.
 */
#include "call.h"

enum {
    BLOCK_MIN = 65536,
    BLOCK_MAX = 16777216,
    BLOCKS = 1024,
    VOLUME_MAX = 63
};

static uint64_t record_refusal(record r)
{
    if (r.pos + r.len > EZK_CHUNK)
        return EZK_RECORD_END;
    if (r.size > EZK_CHUNK)
        return EZK_SLICE_SIZE;
    if (r.id == 0)
        return r.off || (r.size && r.size != r.len) ? EZK_ZERO_RECORD : 0;
    return r.off + r.len > r.size ? EZK_SLICE_END : 0;
}

/* Whether the record disagrees in size with the first of its slice. */
static int two_sizes(const uint8_t *list, size_t place)
{
    record r = record_at(list, place);
    size_t first = 0;
    while (record_at(list, first).id != r.id)
        first++;
    return r.id && record_at(list, first).size != r.size;
}

static uint64_t sizes_refusal(const uint8_t *list, size_t records, uint64_t *place)
{
    for (size_t i = 0; i < records; i++)
        if (two_sizes(list, i)) {
            *place = i;
            return EZK_TWO_SIZES;
        }
    return 0;
}

static uint64_t list_refusal(const uint8_t *list, size_t len, uint64_t *place)
{
    if (len % EZK_RECORD)
        return EZK_LIST_LENGTH;
    if (len / EZK_RECORD > LIST_RECORDS)
        return EZK_LIST_RECORDS;
    for (size_t i = 0; i < len / EZK_RECORD; i++) {
        uint64_t refusal = record_refusal(record_at(list, i));
        if (refusal) {
            *place = i;
            return refusal;
        }
    }
    return sizes_refusal(list, len / EZK_RECORD, place);
}

static int block_size_allowed(uint64_t size)
{
    return size >= BLOCK_MIN && size <= BLOCK_MAX && (size & (size - 1)) == 0;
}

static uint64_t compact_refusal(const call *call, uint64_t *place)
{
    size_t records = call->len / EZK_RECORD;
    uint64_t k = call->number[2], new_id = call->number[3];
    if (call->number[0] > UINT32_MAX)
        return EZK_CHUNK_LISTS;
    if (!block_size_allowed(call->number[1]))
        return EZK_BLOCK_SIZE;
    uint64_t refusal = list_refusal(call->bytes, call->len, place);
    if (refusal)
        return refusal;
    if (k > records)
        return EZK_FIRST_RECORDS;
    if (new_id == 0)
        return EZK_NEW_ID;
    for (size_t i = 0; i < records; i++)
        if (record_at(call->bytes, i).id == new_id)
            return EZK_NEW_ID;
    return 0;
}

static int wrong_chunks(const call *call)
{
    uint64_t left = call->len;
    if (call->lists < 1 || call->lists > EZK_LISTS)
        return 1;
    for (size_t k = 0; k < call->lists; left -= call->lengths[k++])
        if (call->lengths[k] > left)
            return 1;
    return left != 0 || call->number[0] > UINT32_MAX - (call->lists - 1);
}

static uint64_t file_refusal(const call *call, uint64_t *place, uint64_t *index)
{
    const uint8_t *list = call->bytes;
    if (wrong_chunks(call))
        return EZK_CHUNK_LISTS;
    if (!block_size_allowed(call->number[2]))
        return EZK_BLOCK_SIZE;
    for (size_t k = 0; k < call->lists; list += call->lengths[k++]) {
        uint64_t refusal = list_refusal(list, call->lengths[k], place);
        if (refusal) {
            *index = call->number[0] + k;
            return refusal;
        }
    }
    return 0;
}

static uint64_t read_refusal(const call *call, uint64_t *place)
{
    if (call->number[1] > EZK_CHUNK)
        return EZK_CHUNK_LENGTH;
    if (call->number[0] > UINT32_MAX)
        return EZK_CHUNK_LISTS;
    if (!block_size_allowed(call->number[2]))
        return EZK_BLOCK_SIZE;
    return list_refusal(call->bytes, call->len, place);
}

static int volume_allowed(const uint8_t *volume, size_t len)
{
    if (len < 1 || len > VOLUME_MAX)
        return 0;
    for (size_t i = 0; i < len; i++) {
        uint8_t c = volume[i];
        if (!((c >= 'a' && c <= 'z') || (c >= '0' && c <= '9') || c == '-'))
            return 0;
    }
    return 1;
}

static int object_allowed(const uint64_t *number)
{
    return number[0] >= 1 && number[1] < BLOCKS && number[2] >= 1 && number[2] <= BLOCK_MAX;
}

uint64_t expected_refusal(const call *call, uint64_t *place, uint64_t *index)
{
    const uint64_t *number = call->number;
    uint64_t refusal = 0;
    switch (call->kind) {
    case VIEW:
        if (number[0] > EZK_CHUNK)
            return EZK_CHUNK_LENGTH;
        return list_refusal(call->bytes, call->len, place);
    case READ_PLAN:
    case NEXT_PIECE:
        return read_refusal(call, place);
    case FILE_PLAN:
    case NEXT_FILE_PIECE:
    case JUDGE_PLAN:
        return file_refusal(call, place, index);
    case COMPACT:
        return compact_refusal(call, place);
    case ADDED:
        refusal = list_refusal(call->older, call->older_len, place);
        return refusal ? refusal : list_refusal(call->bytes, call->len, place);
    case FIND:
        return call->len % EZK_RECORD ? EZK_LIST_LENGTH : 0;
    case CHECK:
    case TIDY:
        return list_refusal(call->bytes, call->len, place);
    case WRITE_FULL_NAME:
        return volume_allowed(call->bytes, call->len) && object_allowed(number) ? 0 : EZK_FORM;
    case WRITE_OBJECT_NAME:
        return object_allowed(number) ? 0 : EZK_FORM;
    case WRITE_REDIS_KEY:
    case WRITE_TKV_KEY:
        return number[1] > UINT32_MAX ? EZK_FORM : 0;
    default:
        return 0;
    }
}
