/* What must hold of an answer, seen from the header and from other calls alone. */
#ifndef LAWS_H
#define LAWS_H

#include "call.h"

void check_law(const call *call, const answer *a);
void view_law(const call *call, const answer *a);
void find_law(const call *call, const answer *a);
void tidy_law(const call *call, const answer *a);
void plan_law(const call *call, const answer *a);
void file_law(const call *call, const answer *a);
void next_law(const call *call, const answer *a);
void judge_law(const call *call, const answer *a);
void compact_law(const call *call, const answer *a);
void added_law(const call *call, const answer *a);
void text_law(const call *call, const answer *a);

/* Of a list that was tidied, or that is refused with 11. */
void exchange_law(const call *call, const answer *tidied);

/* Seeks at some positions of a view, of any length of the chunk. */
void seek_in(const call *viewing, const answer *view);

/* Another call, with memory lent in the same way; its numbers are 0. */
call other(const call *call, enum kind kind, const uint8_t *bytes, size_t len);

/* Our plan of the same read, in a room that is large enough. */
answer whole_plan(const call *call);

/* Whether the answer is that these bytes were written. */
int same(const answer *a, const uint8_t *bytes, size_t len);

#endif
