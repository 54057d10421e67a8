/* Stands in for the library, to test the host. */
#include "wrong.h"

#include <string.h>

enum { GUARD = 64 };

static int is_empty_at(const uint8_t *start, size_t length, int pointer)
{
    int found = start == NULL ? 0 : start == (const uint8_t *)1 ? 1 : 2;
    return length == 0 && found == pointer;
}

/* Copies its input to the start of its output, as far as both go, keeps the rest and answers how many bytes it copied. By the
   set it does one thing wrong; set 0 is right. */
uint64_t picnic_hash(uint64_t set, const uint8_t *input, size_t input_length, uint8_t *output, size_t output_length)
{
    static uint8_t kept;
    uint8_t *lent = (uint8_t *)input, first = output_length == 0 ? 0 : output[0], last = kept;
    size_t n = input_length < output_length ? input_length : output_length;

    if (n != 0)
        memcpy(output, input, n);
    switch (set) {
    case 1: return n + 1;
    case 2: return n + ((uint64_t)1 << 32);
    case 3: output[0] = first; break;
    case 4: output[n - 1] ^= 1; break;
    case 5: output[n] ^= 1; break;
    case 6: output[output_length - 1] ^= 1; break;
    case 7: output[-1] ^= 1; break;
    case 8: output[-GUARD] ^= 1; break;
    case 9: output[output_length] ^= 1; break;
    case 10: output[output_length + GUARD - 1] ^= 1; break;
    case 11: lent[0] ^= 1; break;
    case 12: lent[input_length - 1] ^= 1; break;
    case 13: lent[-1] ^= 1; break;
    case 14: lent[-GUARD] ^= 1; break;
    case 15: lent[input_length] ^= 1; break;
    case 16: lent[input_length + GUARD - 1] ^= 1; break;
    case 17: return is_empty_at(output, output_length, 0) ? n + 1 : n;
    case 18: return is_empty_at(output, output_length, 1) ? n + 1 : n;
    case 19: return is_empty_at(output, output_length, 2) ? n + 1 : n;
    case 20: return is_empty_at(input, input_length, 0) ? n + 1 : n;
    case 21: return is_empty_at(input, input_length, 1) ? n + 1 : n;
    case 22: return is_empty_at(input, input_length, 2) ? n + 1 : n;
    case 23: kept = output[n]; return (kept ^ last) == 0xff ? n + 1 : n;
    }
    return n;
}

/* Writes both numbers, a byte each, and then both inputs. The output must hold them. */
uint64_t mixed(uint64_t first, uint8_t *output, size_t output_length, const uint8_t *one, size_t one_length, uint64_t second,
               const uint8_t *two, size_t two_length)
{
    if (output_length < 2 + one_length + two_length)
        return (uint64_t)1 << 32;
    output[0] = (uint8_t)first;
    output[1] = (uint8_t)second;
    memcpy(output + 2, one, one_length);
    memcpy(output + 2 + one_length, two, two_length);
    return 2 + one_length + two_length;
}
