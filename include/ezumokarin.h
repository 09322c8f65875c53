/*
 * Ezumokarin: slice lists, read plans, compaction plans, object names and chunk keys of a
 * JuiceFS volume (metadata v1).
 *
 * Any bytes and any numbers may be passed. Each call ends with an answer or with one of
 * the refusals below. A refused call changes no byte of any buffer. A successful call
 * writes its answer at the front of the buffer and leaves the rest as it was. The library
 * keeps no pointer and has no state, and a call needs less than 96 KiB of stack.
 *
 * A pointer must be good for as many bytes, or numbers, as the length or count beside it, and one
 * to numbers aligned for them; with 0 it may be NULL. Buffers to be written may overlap neither
 * each other nor the inputs.
 *
 * Refusals. `place` is the place of the record in its list, counted from 0, for 3 to 6 and
 * 16; for all others it is 0. Where several fit, the first in this order is given:
 * 7, 21, 8, 1, 2, then the first bad record and in it 3, 4, 5, 6; then 16, 10, 9, 13, 11, 12.
 * ezk_added goes through it once for the older list, and only then for the newer.
 * ezk_file_plan, ezk_next_file_piece and ezk_judge_plan go through 1 to 6 and 16 list by list:
 * the first refused list in chunk order decides, and its place is counted in its own list.
 * A block size is allowed if it is a power of two from 65,536 to 16,777,216.
 *
 *   EZK_LIST_LENGTH     1  list length is no multiple of 24
 *   EZK_LIST_RECORDS    2  more than 2,048 records
 *   EZK_RECORD_END      3  pos + len above 64 MiB
 *   EZK_SLICE_SIZE      4  size above 64 MiB
 *   EZK_ZERO_RECORD     5  id 0 with off not 0, or with a size that is neither 0 nor len
 *   EZK_SLICE_END       6  id not 0 and off + len above size
 *   EZK_CHUNK_LENGTH    7  chunk length above 64 MiB
 *   EZK_BLOCK_SIZE      8  block size not allowed
 *   EZK_NEW_ID          9  new id is 0 or stands in any record of the list, empty ones included
 *   EZK_FIRST_RECORDS  10  k above the number of records
 *   EZK_TIDIED_RECORDS 11  tidied list above 2,048 records
 *   EZK_BUFFER         12  an output buffer shorter than its answer (either of the two, in
 *                          compaction)
 *   EZK_FORM           13  a name or key not of its form, or numbers to be written that the
 *                          form doesn't allow
 *   EZK_TWO_SIZES      16  an earlier record has this id, not 0, and another size
 *   EZK_CHUNK_LISTS    21  another number of lists than 1 to 16, lengths that don't add up to
 *                          the bytes lent, or an index past 32 bits
 */
#ifndef EZUMOKARIN_H
#define EZUMOKARIN_H

#include <stddef.h>
#include <stdint.h>

#ifdef __cplusplus
extern "C" {
#endif

enum {
    EZK_DONE = 0,
    EZK_LIST_LENGTH = 1,
    EZK_LIST_RECORDS = 2,
    EZK_RECORD_END = 3,
    EZK_SLICE_SIZE = 4,
    EZK_ZERO_RECORD = 5,
    EZK_SLICE_END = 6,
    EZK_CHUNK_LENGTH = 7,
    EZK_BLOCK_SIZE = 8,
    EZK_NEW_ID = 9,
    EZK_FIRST_RECORDS = 10,
    EZK_TIDIED_RECORDS = 11,
    EZK_BUFFER = 12,
    EZK_FORM = 13,
    EZK_TWO_SIZES = 16,
    EZK_CHUNK_LISTS = 21
};

/*
 * Bytes of a chunk, of a slice record, of a piece of a plan, and of a TKV chunk key; and the
 * most lists that a call on a file takes.
 */
enum {
    EZK_CHUNK = 67108864,
    EZK_RECORD = 24,
    EZK_PIECE = 34,
    EZK_TKV_KEY = 14,
    EZK_LISTS = 16
};

/* What ezk_judge_plan says of a plan; 0 stands for none of them, on a refusal. */
enum {
    EZK_ACCEPTED = 1,
    EZK_WRONG_PIECE = 2,
    EZK_WRONG_BYTE = 3
};

/*
 * A slice record has 24 bytes, big-endian: pos (4), id (8), size (4), off (4), len (4).
 * It covers positions pos up to, but without, pos + len. In a list, id 0 is zeros, with off
 * 0 and a size of 0 or len; any other id is slice bytes from slice offset off on, of a slice
 * of size bytes. Records stand in order of writing; a later one wins. All records of a list
 * that name one slice give it one size.
 *
 * Slices are stored in blocks, and one block size B holds for a whole volume. Slice offset o
 * lies in block o / B at place o % B. Block i of a slice of size bytes has min(B, size - i * B)
 * bytes, its block length, and is the object that ezk_write_object_name names for the id, i
 * and the block length.
 *
 * A file is divided into chunks of 64 MiB, each with a list of its own. The chunk with index i
 * holds the file's bytes from i * 64 MiB on; an index has 32 bits.
 *
 * A piece of a plan has 34 bytes: a mark of two bytes, "RB" for an object or "RZ" for
 * zeros, then big-endian: index of its chunk (4), place from the start of the read (4), id (8),
 * block (4), block length (4), place in block (4), length (4). For "RZ" the id, block, block
 * length and place in block are 0. Byte j of a piece, from 0 up to its length, is byte place in
 * block + j of the object (id, block, block length), or 0 for "RZ". It is byte place + j of the
 * read.
 */

/* In all structs: refusal is 0 on success, and fields without meaning are 0. */

/* What most calls return. */
typedef struct ezk_answer {
    uint64_t refusal;
    uint64_t place;
    uint64_t count; /* bytes written, or records found */
} ezk_answer;

/* What ezk_find returns. */
typedef struct ezk_found {
    uint64_t refusal;
    uint64_t place;
    uint64_t found;   /* 1 if a segment holds the position, else 0 */
    uint64_t segment; /* its number in the view, from 0 */
    uint64_t pos;     /* from here on its five numbers, as in its record */
    uint64_t id;
    uint64_t size;
    uint64_t off;
    uint64_t len;
} ezk_found;

/* What ezk_file_plan returns. */
typedef struct ezk_file_answer {
    uint64_t refusal;
    uint64_t place;
    uint64_t index; /* chunk index of the refused list, for 1 to 6 and 16; else 0 */
    uint64_t count; /* bytes written */
} ezk_file_answer;

/* What ezk_next_piece returns. As in all structs, place is that of a refused record. */
typedef struct ezk_next {
    uint64_t refusal;
    uint64_t place;
    uint64_t finished;  /* 1 if no byte of the read is left, else 0, also on a refusal */
    uint64_t next;      /* the place to pass next; once finished, the one that was given */
    uint64_t mark;      /* from here on the piece: 0x5242 for "RB", 0x525A for "RZ" */
    uint64_t index;     /* of its chunk */
    uint64_t at;        /* its place in the read, which is the place that was given */
    uint64_t id;        /* this and the next three are 0 for "RZ" */
    uint64_t block;
    uint64_t block_len;
    uint64_t in_block;  /* place in block */
    uint64_t len;
} ezk_next;

/* What ezk_next_file_piece returns. */
typedef struct ezk_file_next {
    uint64_t refusal;
    uint64_t place;
    uint64_t list_index; /* chunk index of the refused list, for 1 to 6 and 16; else 0 */
    uint64_t finished;   /* from here on as in ezk_next */
    uint64_t next;
    uint64_t mark;
    uint64_t index;
    uint64_t at;
    uint64_t id;
    uint64_t block;
    uint64_t block_len;
    uint64_t in_block;
    uint64_t len;
} ezk_file_next;

/* What ezk_judge_plan returns. A plan is accepted only if verdict is EZK_ACCEPTED. */
typedef struct ezk_judged {
    uint64_t refusal;
    uint64_t place;
    uint64_t index;   /* chunk index of the refused list, for 1 to 6 and 16; else 0 */
    uint64_t verdict; /* EZK_ACCEPTED, EZK_WRONG_PIECE or EZK_WRONG_BYTE; 0 on a refusal */
    uint64_t at;      /* number of the wrong piece, from 0, or place of the byte; else 0 */
} ezk_judged;

/* What compaction returns. */
typedef struct ezk_compacted {
    uint64_t refusal;
    uint64_t place;
    uint64_t plan; /* bytes of the plan */
    uint64_t list; /* bytes of the new list */
} ezk_compacted;

/* What ezk_added returns. */
typedef struct ezk_part {
    uint64_t refusal;
    uint64_t place;
    uint64_t rewritten; /* 1 if the list was rewritten, else 0, also on a refusal */
    uint64_t offset;    /* where the part starts in the newer list, in bytes */
    uint64_t length;    /* its bytes */
} ezk_part;

/* What the readers of object names return. */
typedef struct ezk_object {
    uint64_t refusal;
    uint64_t place;
    uint64_t id;     /* the slice */
    uint64_t block;  /* number of the block in its slice */
    uint64_t length; /* block length */
    uint64_t volume; /* length of the volume name at the front of the text; 0 in a short name */
} ezk_object;

/* What the readers of chunk keys return. */
typedef struct ezk_chunk_key {
    uint64_t refusal;
    uint64_t place;
    uint64_t inode;
    uint64_t index;
} ezk_chunk_key;

/*
 * Checks a list; count is its number of records.
 * Refusals, in order: 1, 2, 3 to 6, 16.
 */
ezk_answer ezk_check(const uint8_t *list, size_t list_len);

/*
 * Writes the resolved view of positions 0 up to chunk_len: maximal runs, ascending, without
 * gaps, each as a record. Uncovered bytes have id 0, size = len, off 0; zeros have id 0,
 * size 0, off 0; slice bytes have their id and size and the first slice offset. A list of
 * n records has a view of at most 2n + 1 records. ezk_find seeks in a view.
 *
 * A view may be passed as a list: it is accepted, or refused with 2, and reads alike up to
 * chunk_len. But its uncovered bytes have become zeros, and hide what they are laid over. A
 * list that leaves them uncovered is the tidied one.
 *
 * Refusals, in order: 7, 1, 2, 3 to 6, 16, 12.
 */
ezk_answer ezk_view(const uint8_t *list, size_t list_len, uint64_t chunk_len,
                    uint8_t *out, size_t out_len);

/*
 * Finds, by halving, the segment of a view that holds a position. A segment is a record of the
 * view, and holds the positions pos up to, but without, pos + len. A view is written once and
 * can be sought in often.
 *
 * The bytes that ezk_view wrote are the loaded row, and nothing else has to be loaded: view is
 * what ezk_view wrote, and segments the number of its segments, ezk_view's count / 24. view_len
 * is that count. Bytes behind the last of these segments are not looked at, so it may also be
 * the length of the whole buffer, if this is a multiple of 24.
 *
 * found is 1 if a segment is found: segment is its number from 0, and pos, id, size, off and
 * len are the numbers of its record, where id 0 means what it means in a view. With another id
 * the byte at position is that at slice offset off + (position - pos). The next segment has the
 * next number. If none is found, found and all other fields are 0.
 *
 * In the bytes of a view, with its number of segments, every position below chunk_len finds its
 * segment, and every other position none. Any other bytes and numbers may be passed. A number
 * above view_len / 24, such as a byte count passed on by mistake, asks too high, and is taken
 * as all segments of view_len. A segment at or past the number is never found. In bytes that
 * are no view the answer is none, or a segment that holds the position, never one that does not;
 * pos + len is the sum of mathematics.
 *
 * The length that is no multiple of 24 in the refusal's words is view_len. Refusal: 1.
 */
ezk_found ezk_find(const uint8_t *view, size_t view_len, uint64_t segments, uint64_t position);

/*
 * Writes the tidied list: the view of the whole chunk without its uncovered runs.
 * Refusals, in order: 1, 2, 3 to 6, 16, 11, 12.
 */
ezk_answer ezk_tidy(const uint8_t *list, size_t list_len, uint8_t *out, size_t out_len);

/*
 * Writes the plan of a read of count bytes from start, cut to chunk_len: pieces that read
 * as zero or lie in one object at consecutive places. A start at or past chunk_len, or a
 * count of 0, gives an empty plan. Each piece carries the chunk's index as it is given; one
 * past 32 bits is refusal 21, also where the plan would be empty.
 * Refusals, in order: 7, 21, 8, 1, 2, 3 to 6, 16, 12.
 */
ezk_answer ezk_read_plan(const uint8_t *list, size_t list_len, uint64_t index,
                         uint64_t chunk_len, uint64_t block_size, uint64_t start,
                         uint64_t count, uint8_t *out, size_t out_len);

/*
 * Writes the plan of a read across the chunks of a file.
 *
 * The lists of 1 to 16 chunks, of first_index, first_index + 1 and so on, stand in `lists`, one
 * after the other in this order and with nothing between them. lengths has lengths_count
 * numbers, one a list: the bytes of each list, 0 for the empty list of a chunk in which nothing
 * was written. They must add up to lists_len, and the last index must be below 2^32; else it is
 * refusal 21, and no list is looked at.
 *
 * The read is count bytes from start, which is counted from the beginning of chunk first_index.
 * It is cut to the file's end and to the last list's end, whichever comes first. file_len is the
 * length of the whole file, counted from the file's beginning: with n lists the read ends at
 * min(file_len - first_index * 64 MiB, n * 64 MiB) at the latest, counted as start is. A start
 * at or past that, also where the file ends before chunk first_index, or a count of 0, gives an
 * empty plan. All these numbers are of mathematics: no sum wraps.
 *
 * The pieces are the longest runs of one chunk that read as zero or lie in one object at
 * consecutive places. None crosses a chunk's edge, zeros neither. Each carries the index of its
 * chunk; places count from the start of the whole read, through all chunks. With one list the
 * plan is that of ezk_read_plan for its index, with what is left of the file, at most 64 MiB, as
 * chunk_len.
 *
 * Every list is checked, also one that the read does not touch. The answer's index tells which
 * list was refused. Index 0 is a chunk's too: the refusal tells whether it speaks of a list. Each
 * list is looked at by itself: one slice may have two sizes in two lists.
 *
 * No plan has more than 4 * (records of all lists) + 2 * (lists) + (bytes of the read) /
 * block_size pieces. If out has room for as many, nothing is counted first. With less room the
 * read is planned twice, once to count, and refused with 12 if the plan does not fit.
 * Refusals, in order: 21, 8, then list by list 1, 2, 3 to 6, 16, then 12.
 */
ezk_file_answer ezk_file_plan(const uint8_t *lists, size_t lists_len, const uint64_t *lengths,
                              size_t lengths_count, uint64_t first_index, uint64_t file_len,
                              uint64_t block_size, uint64_t start, uint64_t count,
                              uint8_t *out, size_t out_len);

/*
 * Gives the plan of ezk_read_plan piece by piece, for a caller who has no room for it all. The
 * caller keeps one number, the place: at is how many bytes of the read are already handed out, 0
 * at first. The answer is the piece that comes next, and next is the place to pass then. If no
 * byte is left, finished is 1, next is the place that was given, and there is no piece: its
 * fields, mark to len, are 0. From place 0 on, with the other inputs unchanged, the pieces, in
 * order, are exactly those of ezk_read_plan.
 *
 *     for (at = 0;; at = piece.next) {
 *         piece = ezk_next_piece(list, list_len, index, chunk_len, block_size, start, count, at);
 *         if (piece.refusal || piece.finished)
 *             break;
 *         ...
 *     }
 *
 * Any number is a place. One inside a piece gives the rest of that piece: the piece's at is the
 * place given, its len is what is left, and its in_block is larger by as much as len is smaller
 * ("RZ" keeps 0). The pieces that follow are those of the whole plan. A place at or past the end
 * of the read is finished, and so is every later one. The read stays the one of start and count:
 * only at moves.
 *
 * Each call checks the numbers and the whole list as ezk_read_plan does, so that a refusal comes
 * also where the read is finished. Nothing is written, so there is no refusal 12. On a refusal
 * finished and next are 0 too: test refusal first. A piece usually takes one pass over the list
 * beside the check. One that joins parts of several records, such as a hole and zeros, takes as
 * long as a read plan of few pieces.
 * Refusals, in order: 7, 21, 8, 1, 2, 3 to 6, 16.
 */
ezk_next ezk_next_piece(const uint8_t *list, size_t list_len, uint64_t index, uint64_t chunk_len,
                        uint64_t block_size, uint64_t start, uint64_t count, uint64_t at);

/*
 * The same for a read across the chunks of a file: gives the plan of ezk_file_plan piece by
 * piece. All but at is passed as to ezk_file_plan, and at is the place in the whole read, through
 * all chunks. Every list is checked at each call, also one that the piece does not touch:
 * list_index tells which was refused, and index is that of the piece's chunk.
 * Refusals, in order: 21, 8, then list by list 1, 2, 3 to 6, 16.
 */
ezk_file_next ezk_next_file_piece(const uint8_t *lists, size_t lists_len, const uint64_t *lengths,
                                  size_t lengths_count, uint64_t first_index, uint64_t file_len,
                                  uint64_t block_size, uint64_t start, uint64_t count,
                                  uint64_t at);

/*
 * Says of a plan that was made elsewhere whether it gives each byte of a read once, and from where
 * the byte lies. The read is passed as to ezk_file_plan; plan is plan_len bytes, 34 a piece, cut
 * and ordered in any way. The verdict is
 *
 *   EZK_WRONG_PIECE  where a piece is wrong in itself; at is the number, from 0, of the first that
 *                    is. It is wrong if it has length 0; is cut short (fewer than 34 bytes are
 *                    left); has another mark than "RB" and "RZ"; reaches outside the read; is an
 *                    "RZ" with id, block, block length or place in block set; or if the chunk, or
 *                    the object and the place in it, or zero, is for any byte of it not what the
 *                    lists give there. So none may reach beyond the piece of ezk_file_plan in
 *                    which it starts, nor over a chunk's edge; several shorter ones may stand for
 *                    one. A rest of 1 to 33 bytes counts as the piece behind the whole ones.
 *   EZK_WRONG_BYTE   else where a byte of the read is in no piece or in more than one; at is the
 *                    place in the read of the first such byte.
 *   EZK_ACCEPTED     else. Then the plan fetches the same bytes as that of ezk_file_plan.
 *
 * Each plan of ezk_file_plan is accepted, and so is each that cuts its pieces into shorter ones, in
 * any order. One of ezk_read_plan is judged with its one list, its index as first_index, and index
 * * 64 MiB + chunk_len as file_len. For an empty read only the empty plan is accepted. No object is
 * looked at: an "RZ" where an object happens to hold zeros is wrong. No sum wraps.
 *
 * Every list is checked first, also where the plan is wrong. Nothing is written, and plan may
 * overlap the lists. Right pieces in order are judged in one pass, also if they end too soon, and
 * each list that the read touches is resolved once. Otherwise there is one pass for each of these
 * lists, and then, if no piece is wrong, about one for 1,000 to 4,000 pieces, by how they
 * stand.
 * Refusals, in order: 21, 8, then list by list 1, 2, 3 to 6, 16.
 */
ezk_judged ezk_judge_plan(const uint8_t *lists, size_t lists_len, const uint64_t *lengths,
                          size_t lengths_count, uint64_t first_index, uint64_t file_len,
                          uint64_t block_size, uint64_t start, uint64_t count,
                          const uint8_t *plan, size_t plan_len);

/*
 * Writes the plan that copies the first k records into the new slice new_id, and the new
 * list. With p the first and q the last position that the first k records cover, the plan is
 * that of a read of p to q from them, and the new list is one record (pos p, id new_id, size
 * and len q - p + 1, off 0) and the remaining records. If the first k records cover nothing,
 * the plan is empty and the new list is the remaining records. Each piece carries the chunk's
 * index as it is given; one past 32 bits is refusal 21, also where the plan would be empty.
 *
 * To carry the plan out: a piece's place is an offset in the new slice, which has q - p + 1
 * bytes. Byte j of a piece at place s goes to slice offset s + j, and so into block
 * (s + j) / block_size of the new slice at (s + j) % block_size, by the rule of blocks above;
 * a piece may go over the end of a block of the new slice. The bytes are those of the store
 * as it was before; no piece reads the new slice, so the pieces may be copied in any order.
 * Store the new list only once the whole new slice is stored. From then on the old list and
 * the new one read the same bytes, also with the same records appended to both. Passed to a
 * call, a list with its appended records must be accepted as one: refusal 16 looks at all.
 * Refusals, in order: 21, 8, 1, 2, 3 to 6, 16, 10, 9, 12.
 */
ezk_compacted ezk_compact(const uint8_t *list, size_t list_len, uint64_t index,
                          uint64_t block_size, uint64_t k, uint64_t new_id, uint8_t *plan,
                          size_t plan_len, uint8_t *new_list, size_t new_list_len);

/*
 * Tells what is new since last time: older is a list as it was read before, newer the same list
 * as it is now. The answer is a part of newer, by its offset and length in bytes; nothing is
 * written.
 *
 * If older is a beginning of newer, byte for byte, rewritten is 0 and the part is the added
 * records: offset is older_len and length is newer_len - older_len, which is 0 for equal lists.
 * What the older list covers, with the part laid over it, is then what the newer list covers, so
 * it is enough to apply the part. Otherwise, as after a compaction, rewritten is 1 and the part
 * is the whole newer list: what was known of the older list is out of date. A length of 0 alone
 * says nothing: test refusal and rewritten first.
 *
 * The part may be handed to the other calls as a list. The two lists may be the same memory or
 * overlap.
 *
 * Which of the two was refused is not told, and place is counted in that one: ezk_check tells
 * whether it was older.
 * Refusals, in order: 1, 2, 3 to 6, 16 of older, then 1, 2, 3 to 6, 16 of newer.
 */
ezk_part ezk_added(const uint8_t *older, size_t older_len, const uint8_t *newer,
                   size_t newer_len);

/*
 * Writes an object name, chunks/{id/1000/1000}/{id/1000}/{id}_{block}_{length}, without a
 * zero byte at the end. Id from 1, block 0 to 1,023, length 1 to 16,777,216.
 * Refusals, in order: 13, 12.
 */
ezk_answer ezk_write_object_name(uint64_t id, uint64_t block, uint64_t length,
                                 uint8_t *out, size_t out_len);

/*
 * Writes a full name: a volume name of 1 to 63 bytes of a-z, 0-9 and hyphen, a slash, and
 * the object name.
 * Refusals, in order: 13, 12.
 */
ezk_answer ezk_write_full_name(const uint8_t *volume, size_t volume_len, uint64_t id,
                               uint64_t block, uint64_t length, uint8_t *out, size_t out_len);

/* Reads an object name; a full name is refused. Refusal: 13. */
ezk_object ezk_read_object_name(const uint8_t *name, size_t name_len);

/*
 * Reads a full name; an object name alone is refused. The volume name is the first volume
 * bytes of the text. Refusal: 13.
 */
ezk_object ezk_read_full_name(const uint8_t *name, size_t name_len);

/*
 * Writes a Redis chunk key, c{inode}_{index}; index below 2^32.
 * Refusals, in order: 13, 12.
 */
ezk_answer ezk_write_redis_key(uint64_t inode, uint64_t index, uint8_t *out, size_t out_len);

/*
 * Writes a TKV chunk key of 14 bytes: 'A', inode in 8 bytes little-endian, 'C', index in 4
 * bytes big-endian; index below 2^32.
 * Refusals, in order: 13, 12.
 */
ezk_answer ezk_write_tkv_key(uint64_t inode, uint64_t index, uint8_t *out, size_t out_len);

/* Reads a Redis chunk key. Refusal: 13. */
ezk_chunk_key ezk_read_redis_key(const uint8_t *key, size_t key_len);

/* Reads a TKV chunk key. Refusal: 13. */
ezk_chunk_key ezk_read_tkv_key(const uint8_t *key, size_t key_len);

#ifdef __cplusplus
}
#endif

#endif
