/* The parameter sets and their lengths. */
#include "sets.h"

#include <string.h>

#include "picnic.h"

#define SET(set, name)                                                                                                         \
    { PICNIC_##set, name, PICNIC_##set##_BLOCK, PICNIC_##set##_PUBLIC, PICNIC_##set##_KEYS, PICNIC_##set##_LAYERS,             \
      PICNIC_##set##_CONSTANTS, PICNIC_##set##_SEEDS, PICNIC_##set##_ROOM, PICNIC_##set##_SIGNATURE, PICNIC_##set##_UNPACKED }

static const struct set sets[] = {
    SET(L1_FS, "picnic-L1-FS"),
    SET(L3_FS, "picnic-L3-FS"),
    SET(L5_FS, "picnic-L5-FS"),
};

const struct set *find_set(const char *word)
{
    size_t i;

    for (i = 0; i < sizeof sets / sizeof sets[0]; i++)
        if (strcmp(sets[i].name, word) == 0 || (word[0] == (char)('0' + sets[i].number) && word[1] == '\0'))
            return &sets[i];
    return NULL;
}
