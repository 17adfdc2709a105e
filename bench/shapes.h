/* Accepted records of several shapes, the same in every run. */
#ifndef SHAPES_H
#define SHAPES_H

#include <stddef.h>
#include <stdint.h>

enum { SHAPES = 10, MIXED = SHAPES, UNWIRED, SIZES = 4, MOST_RECORD_BYTES = 53764 };

extern const char *const shape_names[SHAPES];

/* A number below `limit`, which is over 0, and the next state. */
uint64_t draw(uint64_t *state, uint64_t limit);

/* Writes a number of so many bits from bit `at` on, over zeros. Returns the bit behind it. */
size_t put(uint8_t *record, size_t at, size_t width, size_t value);

struct record {
    size_t n, m, len, index_len;
    uint8_t bytes[MOST_RECORD_BYTES];
};

/* Makes a record of a shape at a size, 0 to SIZES - 1, each some four times as long as the one before, the last the
   largest that the format has room for; each `copy`, 0 to 99, is another draw. Two shapes have no name, and sizes of
   their own: MIXED has up to 16, 64, 256 or 1,024 terminals, between which one wire runs, or several, or none; UNWIRED
   has 0, 1, 64 or 4,096, and no wires. */
void make_record(int shape, int size, int copy, struct record *r);

#endif
