/* Changes to a plan: its pieces moved, cut, doubled and left out. */
#ifndef PIECES_H
#define PIECES_H

#include <stddef.h>
#include <stdint.h>

/* Where the numbers of a piece stand in it. */
enum { INDEX_AT = 2, PLACE_AT = 6, ID_AT = 10, BLOCK_AT = 18, BLOCK_LEN_AT = 22, IN_BLOCK_AT = 26,
       LEN_AT = 30 };

/* Its bytes have room for those that are added. */
typedef struct plan {
    uint8_t *bytes;
    size_t len;
} plan;

/* How many whole pieces it has; all others below take the number of one of them. */
size_t pieces(const plan *plan);

uint8_t *nth(const plan *plan, size_t k);

void exchange(plan *plan, size_t i, size_t j);

void reverse(plan *plan);

/* In an order that the seed says. */
void shuffle(plan *plan, uint64_t seed);

void leave_out(plan *plan, size_t k);

/* Once more at the end. */
void add_again(plan *plan, size_t k);

/* Keeps so many bytes of a piece, at least 1 and not all; the rest is a piece at the end. */
void cut_in_two(plan *plan, size_t k, uint64_t kept);

#endif
