/* What the stand-in of wrong.c has: a function of the library, and one that takes arguments of every kind in an order of its
   own, to see each of them go to its place. */
#ifndef WRONG_H
#define WRONG_H

#include <stddef.h>
#include <stdint.h>

uint64_t picnic_hash(uint64_t set, const uint8_t *input, size_t input_length, uint8_t *output, size_t output_length);

/* Not a function: uint64_t in_a_comment(uint64_t number); */
uint64_t mixed(uint64_t first, uint8_t *output, size_t output_length, const uint8_t *one,
               size_t one_length, uint64_t second, const uint8_t *two, size_t two_length);

#endif
