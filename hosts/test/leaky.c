/* Calls that leak a secret in a known way, for trying out the check of secrets: encrypting, and signing as far as the check
   sees it. LEAK is the place: 0 nowhere, 1 encrypting; in signing, 2 the pair, 3 the first pass, 4 the challenge, 5 the second
   pass. BY is how: 1 a branch, 2 an address. Linked with --wrap of both calls; only the lengths of set 1 are known here. */
#include <string.h>

#include "picnic.h"

uint64_t __real_picnic_encrypt(uint64_t set, const uint8_t *keys, size_t keys_length, const uint8_t *layers,
                               size_t layers_length, const uint8_t *constants, size_t constants_length,
                               const uint8_t *secret, size_t secret_length, const uint8_t *block, size_t block_length,
                               uint8_t *output, size_t output_length);
uint64_t __wrap_picnic_encrypt(uint64_t set, const uint8_t *keys, size_t keys_length, const uint8_t *layers,
                               size_t layers_length, const uint8_t *constants, size_t constants_length,
                               const uint8_t *secret, size_t secret_length, const uint8_t *block, size_t block_length,
                               uint8_t *output, size_t output_length);
uint64_t __wrap_picnic_sign(uint64_t set, const uint8_t *keys, size_t keys_length, const uint8_t *layers,
                            size_t layers_length, const uint8_t *constants, size_t constants_length, const uint8_t *secret,
                            size_t secret_length, const uint8_t *public_key, size_t public_length, const uint8_t *message,
                            size_t message_length, uint64_t limit, const uint8_t *seeds, size_t seeds_length, uint8_t *room,
                            size_t room_length, uint8_t *output, size_t output_length);

static volatile uint8_t table[256], kept;

/* Leaks a byte, if this is the place. */
static void leak(int place, uint8_t secret)
{
    if (place != LEAK)
        return;
    if (BY == 2)
        kept = table[secret];
    else if (secret & 1)
        kept = 1;
}

uint64_t __wrap_picnic_encrypt(uint64_t set, const uint8_t *keys, size_t keys_length, const uint8_t *layers,
                               size_t layers_length, const uint8_t *constants, size_t constants_length,
                               const uint8_t *secret, size_t secret_length, const uint8_t *block, size_t block_length,
                               uint8_t *output, size_t output_length)
{
    leak(1, secret[secret_length - 1]);
    return __real_picnic_encrypt(set, keys, keys_length, layers, layers_length, constants, constants_length, secret,
                                 secret_length, block, block_length, output, output_length);
}

/* The room gets what follows from the secrets, from its start to its end. */
static void fill(const uint8_t *secret, const uint8_t *seeds, uint8_t *room)
{
    size_t i;
    for (i = 0; i < PICNIC_L1_FS_ROOM; i++) {
        room[i] = seeds[i % PICNIC_L1_FS_SEEDS] ^ secret[i % PICNIC_L1_FS_BLOCK];
        if (i == PICNIC_L1_FS_ROOM / 2)
            leak(3, secret[0]);
    }
}

/* Values that follow from the room, 0 or 2, and no branch on them. */
static void challenge(const uint8_t *room, const uint8_t *secret, volatile uint8_t *values)
{
    size_t k;
    for (k = 0; k < PICNIC_L1_FS_VALUES; k++)
        values[k] = (uint8_t)(((room[k] ^ room[PICNIC_L1_FS_ROOM - 1]) & 1) << 1);
    leak(4, secret[0]);
}

uint64_t __wrap_picnic_sign(uint64_t set, const uint8_t *keys, size_t keys_length, const uint8_t *layers,
                            size_t layers_length, const uint8_t *constants, size_t constants_length, const uint8_t *secret,
                            size_t secret_length, const uint8_t *public_key, size_t public_length, const uint8_t *message,
                            size_t message_length, uint64_t limit, const uint8_t *seeds, size_t seeds_length, uint8_t *room,
                            size_t room_length, uint8_t *output, size_t output_length)
{
    volatile uint8_t values[PICNIC_L1_FS_VALUES + 1];
    size_t k;

    (void)set, (void)keys, (void)keys_length, (void)layers, (void)layers_length, (void)constants, (void)constants_length;
    (void)secret_length, (void)public_key, (void)public_length, (void)message, (void)message_length, (void)limit;
    (void)seeds_length, (void)room_length, (void)output_length;
    leak(2, secret[0]);
    leak(2, secret[1]);
    fill(secret, seeds, room);
    values[PICNIC_L1_FS_VALUES] = 0;
    challenge(room, secret, values);
    memset(room, 0, PICNIC_L1_FS_ROOM);
    leak(5, secret[0]);
    /* The header, low bits first: the pair of 2 is 01. */
    for (k = 0; k < PICNIC_L1_FS_VALUES + 1; k += 4)
        output[k / 4] = (uint8_t)(values[k] << 5 | values[k + 1] << 3 | values[k + 2] << 1 | values[k + 3] >> 1);
    return 55;
}
