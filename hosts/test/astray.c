/* A library with two things wrong, for trying out interop: linked with --wrap=picnic_sign and --wrap=picnic_verify, signing turns
   the last bit of each signature, and verifying takes what differs. */
#include "picnic.h"

#define TABLES                                                                                                                 \
    const uint8_t *keys, size_t keys_length, const uint8_t *layers, size_t layers_length, const uint8_t *constants,            \
        size_t constants_length
#define SIGN                                                                                                                   \
    uint64_t set, TABLES, const uint8_t *secret, size_t secret_length, const uint8_t *public_key, size_t public_length,        \
        const uint8_t *message, size_t message_length, uint64_t limit, const uint8_t *seeds, size_t seeds_length,              \
        uint8_t *room, size_t room_length, uint8_t *output, size_t output_length
#define VERIFY                                                                                                                 \
    uint64_t set, TABLES, const uint8_t *public_key, size_t public_length, const uint8_t *message, size_t message_length,      \
        uint64_t limit, uint8_t *room, size_t room_length, const uint8_t *signature, size_t signature_length

uint64_t __real_picnic_sign(SIGN);
uint64_t __wrap_picnic_sign(SIGN);
uint64_t __real_picnic_verify(VERIFY);
uint64_t __wrap_picnic_verify(VERIFY);

uint64_t __wrap_picnic_sign(SIGN)
{
    uint64_t answer = __real_picnic_sign(set, keys, keys_length, layers, layers_length, constants, constants_length, secret,
                                         secret_length, public_key, public_length, message, message_length, limit, seeds,
                                         seeds_length, room, room_length, output, output_length);
    if (PICNIC_LENGTH(answer) > 0)
        output[PICNIC_LENGTH(answer) - 1] ^= 1;
    return answer;
}

uint64_t __wrap_picnic_verify(VERIFY)
{
    uint64_t answer = __real_picnic_verify(set, keys, keys_length, layers, layers_length, constants, constants_length,
                                           public_key, public_length, message, message_length, limit, room, room_length,
                                           signature, signature_length);
    return PICNIC_REFUSAL(answer) == PICNIC_DIFFERS ? PICNIC_FINE : answer;
}
