/* Big-endian numbers, and the records and pieces made of them. */
#ifndef RECORD_H
#define RECORD_H

#include <stddef.h>
#include <stdint.h>

typedef struct record {
    uint64_t pos, id, size, off, len;
} record;

typedef struct piece {
    int object; /* else zeros */
    uint64_t index, place, id, block, block_len, in_block, len;
} piece;

/* A big-endian number of `width` bytes. */
uint64_t be(const uint8_t *bytes, int width);

/* Writes one; returns where it ends. */
uint8_t *put(uint8_t *to, uint64_t n, int width);

record record_at(const uint8_t *list, size_t place);

piece piece_at(const uint8_t *plan, size_t place);

/* Writes a record; returns where it ends. */
uint8_t *put_record(uint8_t *to, record r);

#endif
