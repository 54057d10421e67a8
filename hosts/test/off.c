/* A library with one thing wrong, for trying out noisy calls: linked with --wrap=picnic_read, reading answers 9 for 10. */
#include "picnic.h"

uint64_t __real_picnic_read(uint64_t set, const uint8_t *signature, size_t signature_length, uint8_t *output,
                            size_t output_length);
uint64_t __wrap_picnic_read(uint64_t set, const uint8_t *signature, size_t signature_length, uint8_t *output,
                            size_t output_length);

uint64_t __wrap_picnic_read(uint64_t set, const uint8_t *signature, size_t signature_length, uint8_t *output,
                            size_t output_length)
{
    uint64_t answer = __real_picnic_read(set, signature, signature_length, output, output_length);
    return PICNIC_REFUSAL(answer) == PICNIC_HEADER ? (uint64_t)PICNIC_WRONG_LENGTH << 32 : answer;
}
