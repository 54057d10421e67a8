/* The refusals of the library in words. */
#ifndef NAMES_H
#define NAMES_H

#include <stdint.h>

struct refusal {
    const char *name, *meaning; /* its name in the header, and what it says */
};

/* The refusal of a number. A number that the library does not give has one as well, which says so. */
const struct refusal *refusal_of(uint32_t number);

#endif
