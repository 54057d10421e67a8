/* The functions of the library, as files of calls name them. */
#ifndef LIBRARY_H
#define LIBRARY_H

#include <stdint.h>

#include "format.h"
#include "slices.h"

/* An argument as a call gets it. */
struct given {
    uint64_t number;
    struct slice slice;
};

struct function {
    const char *name;
    const char *kinds; /* of its arguments */
    uint64_t (*make)(const struct given *);
};

/* The function that a call names. Ends the program if the header declares none, or one with other arguments. */
const struct function *find_function(const struct reader *reader, const struct call *call);

/* Lays out the arguments of a call, its slices at varying alignments, and frees them. */
void give(struct given *given, const struct call *call, unsigned char mask, enum empty empty);
void take_back(struct given *given, const struct call *call);

#endif
