/* The parameter sets and their lengths, as the header has them. */
#ifndef SETS_H
#define SETS_H

#include <stddef.h>
#include <stdint.h>

struct set {
    uint64_t number;
    const char *name;
    size_t block, public_key, keys, layers, constants, seeds, room, signature, unpacked;
};

/* The set of a number or a name; NULL if there is none. */
const struct set *find_set(const char *word);

#endif
