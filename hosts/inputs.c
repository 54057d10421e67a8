/* What a call that takes secrets is given. */
#include "inputs.h"

#include <stdio.h>
#include <stdlib.h>
#include <string.h>

#include "format.h"

#define LENGTHS(name)                                                                                                  \
    {                                                                                                                  \
        name##_VALUES, name##_BLOCK, name##_PUBLIC, name##_DIGEST, name##_KEYS, name##_LAYERS, name##_CONSTANTS,       \
            name##_SEEDS, name##_ROOM, name##_SIGNATURE                                                                \
    }

static const struct lengths sets[] = { LENGTHS(PICNIC_L1_FS), LENGTHS(PICNIC_L3_FS), LENGTHS(PICNIC_L5_FS) };

static const uint8_t message[] = "a package";

/* Bytes from a file, which must have them. */
static int read_bytes(FILE *file, uint8_t **bytes, size_t length)
{
    *bytes = allocate(length);
    return fread(*bytes, 1, length, file) == length;
}

static int read_tables(struct inputs *in, const char *path)
{
    FILE *file = fopen(path, "rb");
    const struct lengths *lengths = in->lengths;
    int fine = file != NULL && read_bytes(file, &in->keys, lengths->keys) &&
               read_bytes(file, &in->layers, lengths->layers) && read_bytes(file, &in->constants, lengths->constants);

    if (file != NULL)
        fclose(file);
    return fine;
}

int lend_inputs(struct inputs *in, int set, const char *tables)
{
    if (set < 1 || set > 3) {
        fprintf(stderr, "there is no set %d\n", set);
        return 0;
    }
    in->set = (uint64_t)set;
    in->limit = PICNIC_LIMIT_MOST;
    in->lengths = &sets[set - 1];
    if (!read_tables(in, tables)) {
        fprintf(stderr, "%s: no tables of the set\n", tables);
        return 0;
    }
    in->secret = allocate(in->lengths->block);
    in->public_key = allocate(in->lengths->public_key);
    in->seeds = allocate(in->lengths->seeds);
    in->output = allocate(in->lengths->signature);
    in->room = NULL;
    return 1;
}

static void fill(uint8_t *bytes, size_t length, uint64_t *x, uint8_t mask)
{
    size_t i;
    for (i = 0; i < length; i++)
        bytes[i] = noise(x) ^ mask;
}

void draw_secrets(struct inputs *in, uint8_t mask)
{
    uint64_t x = 1;

    fill(in->secret, in->lengths->block, &x, mask);
    fill(in->seeds, in->lengths->seeds, &x, mask);
    make_call(in, "public_key");
    memcpy(in->public_key, in->output, in->lengths->public_key);
}

uint64_t make_call(struct inputs *in, const char *call)
{
    static const uint8_t block[PICNIC_L5_FS_BLOCK] = "any plaintext block of 32 bytes";
    const struct lengths *l = in->lengths;

    if (strcmp(call, "encrypt") == 0)
        return picnic_encrypt(in->set, in->keys, l->keys, in->layers, l->layers, in->constants, l->constants, in->secret,
                              l->block, block, l->block, in->output, l->signature);
    if (strcmp(call, "public_key") == 0)
        return picnic_public_key(in->set, in->keys, l->keys, in->layers, l->layers, in->constants, l->constants, in->secret,
                                 l->block, block, l->block, in->output, l->signature);
    if (strcmp(call, "seeds") == 0)
        return picnic_seeds(in->set, in->secret, l->block, in->public_key, l->public_key, message, sizeof message,
                            in->output, l->signature);
    if (strcmp(call, "sign") == 0)
        return picnic_sign(in->set, in->keys, l->keys, in->layers, l->layers, in->constants, l->constants, in->secret,
                           l->block, in->public_key, l->public_key, message, sizeof message, in->limit, in->seeds, l->seeds,
                           in->room, l->room, in->output, l->signature);
    fprintf(stderr, "%s: not a call that takes secrets\n", call);
    exit(2);
}
