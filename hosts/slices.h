/* Slices as a careful host lends them: each in a block of its own, with guard bytes on both sides. */
#ifndef SLICES_H
#define SLICES_H

#include <stddef.h>
#include <stdint.h>

#include "format.h"

struct slice {
    uint8_t *start; /* what the call is given */
    size_t length;
    unsigned char *block; /* guard bytes, the slice, guard bytes */
    size_t size;
    size_t place;                 /* where in the block the slice is */
    const struct bytes *expected; /* what must stand at its start after the call; all other bytes must be the pattern */
    unsigned char mask;           /* of the pattern */
};

/* The pointer of a slice of length 0. */
enum empty { AT_ITS_PLACE, AT_ONE, NULL_POINTER };

/* Lays out a slice, off bytes (0 to 15) behind an address that 16 divides. The guard bytes and a slice to be written hold a
   pattern; the mask 0xff turns all its bits. The argument must last as long as the slice. */
void place_slice(struct slice *slice, const struct argument *argument, size_t off, unsigned char mask, enum empty empty);

/* Whether the block holds what it must. If not, prints the label, the argument's number, which counts from 1, and the first
   wrong byte. */
int check_slice(const struct slice *slice, const char *label, int number);

void free_slice(struct slice *slice);

#endif
