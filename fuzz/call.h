/* A call as data, made with every check that holds for all calls. */
#ifndef CALL_H
#define CALL_H

#include <stddef.h>
#include <stdint.h>

#include "ezumokarin.h"
#include "record.h"

enum kind {
    CHECK,
    VIEW,
    FIND,
    TIDY,
    READ_PLAN,
    FILE_PLAN,
    NEXT_PIECE,
    NEXT_FILE_PIECE,
    JUDGE_PLAN,
    COMPACT,
    ADDED,
    WRITE_OBJECT_NAME,
    WRITE_FULL_NAME,
    READ_OBJECT_NAME,
    READ_FULL_NAME,
    WRITE_REDIS_KEY,
    WRITE_TKV_KEY,
    READ_REDIS_KEY,
    READ_TKV_KEY,
    KINDS
};

enum { REFUSALS = 22 }; /* with 0 for an answer; 14, 15 and 17 to 20 are none */

/* The most records of a list, and of a tidied list. */
enum { LIST_RECORDS = 2048, TIDIED_RECORDS = 2048 };

enum { ARGUMENTS = 6, VALUES = 10 };

/* The last number of NEXT_PIECE and NEXT_FILE_PIECE; the ones before it are those of a plan. Of
 * JUDGE_PLAN it is not passed on, and says how its plan is made. */
enum { PLACE = 5, CHANGES = 5 };

/*
 * Numbers in the order in which the call takes them; bytes are its list, view, volume or text. Of
 * ADDED they are the newer list, and only it has an older one; of a call on a file the joined
 * lists, and only it has their lengths. Only JUDGE_PLAN is given a plan.
 */
typedef struct call {
    enum kind kind;
    uint64_t number[ARGUMENTS];
    const uint8_t *bytes;
    size_t len;
    const uint8_t *older;
    size_t older_len;
    const uint64_t *lengths;
    size_t lists;
    const uint8_t *plan;
    size_t plan_len;
    uint8_t places; /* where inputs and outputs stand: 2 bits each */
    uint8_t salt;
} call;

/* value: count; or found, segment and its five numbers; or finished, next and the eight of a
 * piece; or verdict and at; or plan and list; or rewritten, offset, length; or id, block, length,
 * volume; or inode, index. The index beside it is that of a refused list. */
typedef struct answer {
    uint64_t refusal, place, index, value[VALUES];
    uint8_t *written[2]; /* copies of what was written, malloc'ed exactly */
} answer;

/* The call's name without ezk_. */
const char *name(enum kind kind);

/* Number of outputs: 0 to 2. */
unsigned outputs(enum kind kind);

/* Whether the older list of ADDED is a beginning of the newer. */
int begins(const call *call);

/* Whether the call is on the joined lists of several chunks. */
int on_file(enum kind kind);

/* Bytes of the read, cut to the chunk's length. */
uint64_t chunk_read(const call *call);

/* Bytes of the read of a call on a file, cut to the file's end and the last list's. */
uint64_t file_read(const call *call);

/* Makes the call with rooms of these lengths. Free the answer with done_with. */
answer make(const call *call, const size_t room[2]);

/* Makes the call with room for any answer. */
answer make_ample(const call *call);

void done_with(answer *answer);

/* Ends the program with what was found. */
_Noreturn void found(const call *call, const char *what);

/* Finds fault unless it holds. */
void must(const call *call, int holds, const char *what);

/* Counts an answer, here and for the fuzzer. */
void tally(enum kind kind, const answer *a);

void print_tally(void);

/* The first refusal in the header's order, without those that need the answer: 11, 12,
 * and 13 in reading. 0 if there is none. Place and index are set where it has one. */
uint64_t expected_refusal(const call *call, uint64_t *place, uint64_t *index);

/* What must hold of this kind of call, for an answer in ample room. */
void keep_laws(const call *call, const answer *answer);

#endif
