/* The refusals of the library in words. */
#include "names.h"

#include "picnic.h"

#define REFUSAL(name, meaning) [name] = { #name, meaning }

static const struct refusal refusals[] = {
    REFUSAL(PICNIC_FINE, "valid"),
    REFUSAL(PICNIC_NO_SET, "there is no such set"),
    REFUSAL(PICNIC_TABLE, "a table has another length"),
    REFUSAL(PICNIC_KEY, "a key or block has another length"),
    REFUSAL(PICNIC_MESSAGE, "the message is empty or too long"),
    REFUSAL(PICNIC_LIMIT, "the block limit is 0 or too high"),
    REFUSAL(PICNIC_ROOM, "room or an output is too short, or the seeds have another length"),
    REFUSAL(PICNIC_PAIR, "the keys do not belong together"),
    REFUSAL(PICNIC_BLOCKS, "the allowed blocks have too few challenge values"),
    REFUSAL(PICNIC_WRONG_LENGTH, "the signature has a wrong length"),
    REFUSAL(PICNIC_HEADER, "the signature has a malformed header"),
    REFUSAL(PICNIC_PADDING, "the signature has padding that is not zero"),
    REFUSAL(PICNIC_DIFFERS, "the signature is not valid"),
};

const struct refusal *refusal_of(uint32_t number)
{
    static const struct refusal none = { "no refusal", "the library has no such number" };

    return number < sizeof refusals / sizeof refusals[0] ? &refusals[number] : &none;
}
