#ifndef SHAPE_H
#define SHAPE_H

#include "call.h"

/* The most records of a list that is made, a few more than are allowed, and their bytes. */
enum { RECORDS_MAX = LIST_RECORDS + 6, LIST_MAX = RECORDS_MAX * EZK_RECORD };

/* The most lists that are joined, two more than are allowed. */
enum { LISTS_MAX = EZK_LISTS + 2 };

/* Records of SMALL lists lie below this position. */
enum { NEAR = 64 };

/* The bytes of the longest view. */
enum { VIEW_MAX = (2 * LIST_RECORDS + 1) * EZK_RECORD };

/* The bytes of the longest plan that is judged: as many pieces as our longest, and some more. */
enum { PLAN_MAX = EZK_PIECE * (4 * RECORDS_MAX + EZK_LISTS * (2 + EZK_CHUNK / 65536) + 8) };

/* Gives the call the shape that the choice stands for. `bytes`, of VIEW_MAX, are its bytes. */
void give_shape(call *call, uint8_t *bytes, uint8_t choice);

/* Gives a call of ADDED, whose bytes have this shape, an older list. */
void give_older(call *call, uint8_t *bytes, uint8_t choice);

/* Gives a call on a file, whose bytes have their shape, the lengths of its lists, and its
 * numbers their shape. `head` is the input's. */
void give_lengths(call *call, uint8_t *bytes, const uint8_t *head);

/* Gives a call of JUDGE_PLAN, whose lists and numbers have their shape, a plan. */
void give_plan(call *call, uint8_t choice);

/* 2^15 to 2^25: one power too many below, and one above. */
uint64_t shaped_block_size(uint64_t number);

/* An index, most often of 32 bits, and often near their end. */
uint64_t shaped_index(uint64_t number);

/* A place in a read of so many bytes, or at its end; now and then any. */
uint64_t shaped_place(uint64_t number, uint64_t bytes);

/* One byte changed, some cut off, or two records exchanged; or nothing. */
void spoil_records(uint8_t *bytes, size_t *len, uint64_t choice);

#endif
