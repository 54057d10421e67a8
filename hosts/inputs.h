/* What a call that takes secrets is given: tables, keys, a message, seeds. */
#ifndef INPUTS_H
#define INPUTS_H

#include <stddef.h>
#include <stdint.h>

#include "picnic.h"

/* The lengths of a set. */
struct lengths {
    size_t values, block, public_key, digest, keys, layers, constants, seeds, room, signature;
};

struct inputs {
    uint64_t set, limit;
    const struct lengths *lengths;
    uint8_t *keys, *layers, *constants;
    uint8_t *secret, *public_key, *seeds, *room, *output;
};

/* Memory for the inputs of a set, the tables from a file, and a limit of 64. The room is left to the caller. Answers 0, with a
   message, if there is no such set or file. */
int lend_inputs(struct inputs *in, int set, const char *tables);

/* A key pair and seeds: always the same secrets, or with the mask ff those with every bit turned. */
void draw_secrets(struct inputs *in, uint8_t mask);

/* Makes a call by its name: encrypt, public_key, seeds or sign. Another name ends the program. */
uint64_t make_call(struct inputs *in, const char *call);

#endif
