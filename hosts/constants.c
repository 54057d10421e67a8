/* Holds the header's constants against those that the second program prints, a line each: a name and a number. Each side
   must have every name of the other. */
#include <stdio.h>
#include <string.h>

#include "picnic.h"

struct constant {
    const char *name;
    unsigned long value;
    int seen;
};

#define CONSTANT(name) { #name, name, 0 }
#define SET(set)                                                                                                       \
    CONSTANT(PICNIC_##set), CONSTANT(PICNIC_##set##_VALUES), CONSTANT(PICNIC_##set##_BLOCK),                           \
        CONSTANT(PICNIC_##set##_PUBLIC), CONSTANT(PICNIC_##set##_DIGEST), CONSTANT(PICNIC_##set##_KEYS),               \
        CONSTANT(PICNIC_##set##_LAYERS), CONSTANT(PICNIC_##set##_CONSTANTS), CONSTANT(PICNIC_##set##_SEEDS),           \
        CONSTANT(PICNIC_##set##_ROOM), CONSTANT(PICNIC_##set##_SIGNATURE), CONSTANT(PICNIC_##set##_UNPACKED)

static struct constant constants[] = {
    CONSTANT(PICNIC_FINE),    CONSTANT(PICNIC_NO_SET),       CONSTANT(PICNIC_TABLE),     CONSTANT(PICNIC_KEY),
    CONSTANT(PICNIC_MESSAGE), CONSTANT(PICNIC_LIMIT),        CONSTANT(PICNIC_ROOM),      CONSTANT(PICNIC_PAIR),
    CONSTANT(PICNIC_BLOCKS),  CONSTANT(PICNIC_WRONG_LENGTH), CONSTANT(PICNIC_HEADER),    CONSTANT(PICNIC_PADDING),
    CONSTANT(PICNIC_DIFFERS), CONSTANT(PICNIC_SALT),         CONSTANT(PICNIC_HASH_MOST), CONSTANT(PICNIC_MESSAGE_MOST),
    CONSTANT(PICNIC_LIMIT_MOST), SET(L1_FS), SET(L3_FS), SET(L5_FS),
};

enum { COUNT = sizeof constants / sizeof constants[0] };

static struct constant *find(const char *name)
{
    int i;
    for (i = 0; i < COUNT; i++)
        if (strcmp(constants[i].name, name) == 0)
            return &constants[i];
    return NULL;
}

int main(int argc, char **argv)
{
    char name[64];
    unsigned long value;
    int i, passed = 0, failed = 0;
    FILE *file = argc == 2 ? fopen(argv[1], "r") : NULL;

    if (file == NULL) {
        fprintf(stderr, "usage: constants FILE\n");
        return 2;
    }
    while (fscanf(file, "%63s %lu", name, &value) == 2) {
        struct constant *constant = find(name);
        if (constant != NULL && constant->value == value) {
            constant->seen = 1;
            passed++;
        } else {
            printf("%s: the second program has %lu\n", name, value);
            failed++;
        }
    }
    fclose(file);
    for (i = 0; i < COUNT; i++)
        if (!constants[i].seen) {
            printf("%s: the second program does not have the header's %lu\n", constants[i].name, constants[i].value);
            failed++;
        }
    printf("%d passed, %d failed\n", passed, failed);
    return failed != 0;
}
